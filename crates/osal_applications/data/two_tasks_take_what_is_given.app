osal-app 1
task main
count_sem_create $c "c" 0
task_create $t "a" w 0 1
task_create $t "b" w 0 1
count_sem_take $c 10 -> OS_SEM_TIMEOUT
count_sem_give $c
count_sem_give $c
task_delay 1
count_sem_info $c -> OS_SUCCESS 0
end
task w
count_sem_find $c "c"
count_sem_take $c pend -> OS_SUCCESS
end
