osal-app 1
task main
bin_sem_create $s "abcdefghijklmnopqrst" 1 -> OS_ERR_NAME_TOO_LONG
bin_sem_create $s "" 1 -> OS_ERR_INVALID_ARGUMENT 0
bin_sem_create $s "a\x00" 1 -> OS_ERR_INVALID_ARGUMENT
bin_sem_take $s check -> OS_ERR_INVALID_ID
bin_sem_create $s "abcdefghijklmnopqrs" 2 -> 0 0x00040001
bin_sem_take $s check -> 0 ""
bin_sem_take $s check -> -7
end
