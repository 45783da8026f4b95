osal-app 1
task main
condvar_create $c "c"
task_create $t "a" w 0 1
task_create $t "b" w 0 1
task_delay 5
condvar_broadcast $c -> OS_SUCCESS
task_delay 5
condvar_delete $c -> OS_SUCCESS
end
task w
condvar_find $c "c"
condvar_lock $c
condvar_wait $c pend -> OS_SUCCESS
condvar_unlock $c -> OS_SUCCESS
end
