osal-app 1
task main
timebase_create $b "b"
timer_add $m "m" $b h
hold $m -> OS_SUCCESS
timer_delete $m -> OS_ERR_OBJECT_IN_USE
release $m -> OS_SUCCESS
hold $b -> OS_SUCCESS
timer_delete $m -> OS_SUCCESS
timebase_delete $b -> OS_ERR_OBJECT_IN_USE
release $b -> OS_SUCCESS
timebase_delete $b -> OS_SUCCESS
timebase_tick $b 5 -> OS_ERR_INVALID_ID
timer_info $m -> OS_ERR_INVALID_ID
timer_add $m "m" $b h -> OS_ERR_INVALID_ID
timebase_tick $b 0 -> OS_TIMER_ERR_INVALID_ARGS
timer_set $m 0 0 -> OS_TIMER_ERR_INVALID_ARGS
end
handler h
end
