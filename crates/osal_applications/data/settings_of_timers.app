osal-app 1
task main
timebase_create $b "b"
timer_add $m "m" $b h
timer_set $m 0 0 -> OS_TIMER_ERR_INVALID_ARGS
timer_set $m 0 50
timebase_tick $b 49 -> OS_SUCCESS 0
timebase_tick $b 1 -> OS_SUCCESS 1
timebase_free_run $b -> OS_SUCCESS 50
timer_set $m 10 0
timebase_tick $b 100 -> OS_SUCCESS 1
timebase_tick $b 100 -> OS_SUCCESS 0
timer_info $m -> OS_SUCCESS 42949672960
timebase_tick $b 0 -> OS_TIMER_ERR_INVALID_ARGS
timer_delete $m -> OS_SUCCESS
timebase_delete $b -> OS_SUCCESS
end
handler h
bin_sem_find $s "none"
end
