osal-app 1
task main
bin_sem_create $s "s" 0 -> OS_SUCCESS 0x00040001
bin_sem_take $s check -> OS_SUCCESS
end
