osal-app 1
task main
mut_sem_create $m "m"
mut_sem_take $m
task_create $t "w" w 0 1
task_delay 5
mut_sem_delete $m -> OS_ERR_OBJECT_IN_USE
mut_sem_give $m -> OS_SUCCESS
task_delay 5
mut_sem_delete $m -> OS_SUCCESS
end
task w
mut_sem_find $m "m"
mut_sem_give $m -> OS_SEM_FAILURE
mut_sem_take $m -> OS_SUCCESS
mut_sem_give $m -> OS_SUCCESS
end
