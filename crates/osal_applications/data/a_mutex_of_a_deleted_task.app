osal-app 1
task main
mut_sem_create $m "m"
task_create $t "w" w 0 1
task_delay 5
task_delete $t -> OS_SUCCESS
task_delay 5
mut_sem_delete $m -> OS_ERR_OBJECT_IN_USE
mut_sem_take $m
end
task w
mut_sem_find $m "m"
mut_sem_take $m -> OS_SUCCESS
task_delay 100
end
