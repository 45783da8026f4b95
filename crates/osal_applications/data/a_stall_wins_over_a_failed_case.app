osal-app 1
task main
bin_sem_create $a "a" 0 -> OS_ERROR
bin_sem_take $a pend -> OS_SUCCESS
end
