osal-app 1
task main
bin_sem_take $s check
