osal-app 1
task main
timebase_create $b "b"
timer_add $m "m" $b h
repeat 7200
timebase_tick $b 1
end
end
handler h
bin_sem_find $s "s"
bin_sem_find $s "s"
end
