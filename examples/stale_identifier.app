# The identifier of a deleted semaphore is refused, and the next one is another.
osal-app 1
task main
bin_sem_create $s "s" 0 -> OS_SUCCESS 0x00040001
bin_sem_delete $s -> OS_SUCCESS
bin_sem_give $s -> OS_ERR_INVALID_ID
bin_sem_create $s "s" 0 -> OS_SUCCESS 0x00040002
bin_sem_give $s -> OS_SUCCESS
bin_sem_take $s check -> OS_SUCCESS
end
