osal-app 1
task main
task_create $t "w" w 0 1
task_delay 1
timebase_find $b "b" -> OS_SUCCESS 0x00080001
end
task w
timebase_create $b "b"
timer_add $m "m" $b h
timer_add $n "n" $b h
timer_set $m 1 0
timer_set $n 1 0
timebase_tick $b 1 -> OS_SUCCESS 2
timebase_delete $b -> OS_SUCCESS
end
handler h
task_find $t "w" -> OS_SUCCESS 0x00010002
task_delete $t -> OS_SUCCESS
task_info $t -> OS_SUCCESS
end
