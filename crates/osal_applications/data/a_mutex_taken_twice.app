osal-app 1
task main
mut_sem_create $m "m" -> OS_SUCCESS 0x00050001
mut_sem_take $m -> OS_SUCCESS
mut_sem_take $m -> OS_SUCCESS
mut_sem_give $m -> OS_SUCCESS
mut_sem_give $m -> OS_SUCCESS
mut_sem_give $m -> OS_SEM_FAILURE
end
