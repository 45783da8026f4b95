osal-app 1
task main
bin_sem_create $s "s" 0
task_create $t "w" w 0 1
task_delay 5
bin_sem_delete $s -> OS_ERR_OBJECT_IN_USE
task_delete $t -> OS_SUCCESS
task_delete $t -> OS_ERR_INCORRECT_OBJ_STATE
task_delay 5
bin_sem_delete $s -> OS_SUCCESS
end
task w
bin_sem_find $s "s"
bin_sem_take $s pend
end
