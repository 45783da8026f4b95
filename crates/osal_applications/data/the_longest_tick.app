osal-app 1
task main
timebase_create $b "b"
timer_add $m "m" $b h
timer_set $m 1 1
timebase_tick $b 4294967295 -> OS_SUCCESS "\x00\x09\x00\x01\xff\xff\xff\xfe\x00\x00\x00\x01"
timebase_free_run $b -> OS_SUCCESS 4294967295
timebase_tick $b 1 -> OS_SUCCESS 1
timebase_free_run $b -> OS_SUCCESS 0
end
handler h
end
