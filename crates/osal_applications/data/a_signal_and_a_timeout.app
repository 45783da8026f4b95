osal-app 1
task main
condvar_create $c "c"
task_create $t "w" w 0 1
task_delay 5
condvar_lock $c
condvar_signal $c -> OS_SUCCESS
condvar_unlock $c
end
task w
condvar_find $c "c"
condvar_lock $c
condvar_wait $c pend -> OS_SUCCESS
condvar_unlock $c -> OS_SUCCESS
condvar_lock $c
condvar_wait $c 20 -> OS_ERROR_TIMEOUT
condvar_unlock $c -> OS_SUCCESS
condvar_unlock $c -> OS_SEM_FAILURE
end
