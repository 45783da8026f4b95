# A semaphore that is held is not deleted, and a name that is gone is not found.
osal-app 1
task main
bin_sem_create $s "s" 1 -> OS_SUCCESS 0x00040001
bin_sem_info $s -> OS_SUCCESS 1
bin_sem_info $s -> OS_SUCCESS "s"
hold $s -> OS_SUCCESS
bin_sem_delete $s -> OS_ERR_OBJECT_IN_USE
release $s -> OS_SUCCESS
release $s -> OS_ERR_INCORRECT_OBJ_STATE
bin_sem_find $t "s" -> OS_SUCCESS 0x00040001
bin_sem_delete $t -> OS_SUCCESS
bin_sem_find $t "s" -> OS_ERR_NAME_NOT_FOUND
end
