osal-app 1
task main
bin_sem_create $s "ready" 0
task_create $t "worker" worker 1024 100
task_delay 5
bin_sem_give $s -> OS_SUCCESS
end
task worker
bin_sem_find $s "ready"
bin_sem_take $s pend -> OS_SUCCESS
end
