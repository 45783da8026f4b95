osal-app 1
task main
timebase_create $b "b"
timer_add $m "first" $b one
timer_add $n "second" $b two
timer_set $n 10 0
timer_set $m 10 0
timebase_tick $b 10 -> OS_SUCCESS 2
count_sem_find $c "c" -> OS_SUCCESS 0x00030001
count_sem_info $c -> OS_SUCCESS 3
end
handler one
count_sem_create $c "c" 1 -> OS_SUCCESS 0x00030001
end
handler two
count_sem_give $c -> OS_ERR_INVALID_ID
count_sem_find $c "c" -> OS_SUCCESS 0x00030001
count_sem_give $c -> OS_SUCCESS
count_sem_give $c -> OS_SUCCESS
end
