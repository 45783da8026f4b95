osal-app 1
task main
count_sem_create $c "c" 0
timebase_create $b "b" -> OS_SUCCESS 0x00080001
timer_add $m "m" $b h -> OS_SUCCESS 0x00090001
timer_set $m 100 40 -> OS_SUCCESS
timebase_tick $b 200 -> OS_SUCCESS "\x00\x09\x00\x01\x00\x00\x00\x02\x00\x00\x00\x01"
timebase_tick $b 20 -> OS_SUCCESS "\x00\x09\x00\x01\x00\x00\x00\x00\x00\x00\x00\x01"
count_sem_info $c -> OS_SUCCESS 2
timebase_delete $b -> OS_ERR_OBJECT_IN_USE
end
handler h
count_sem_find $c "c"
count_sem_give $c
end
