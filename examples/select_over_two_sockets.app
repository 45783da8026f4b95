osal-app 1
# A task waits for a datagram at either of two ports, and takes the one that came.
task main
socket_open $a dgram -> OS_SUCCESS 0x00060001
socket_bind $a 7 -> OS_SUCCESS
socket_open $b dgram -> OS_SUCCESS 0x00060002
socket_bind $b 8 -> OS_SUCCESS
task_create $t "sender" sender 1024 10
select_multi $a,$b - 5 -> OS_ERROR_TIMEOUT
select_multi $a,$b - 50 -> OS_SUCCESS "\x00\x06\x00\x02"
socket_recv $b 4 check -> 4 "tele"
socket_recv $b 4 check -> OS_ERROR_TIMEOUT
select_one $a w check -> OS_SUCCESS 2
end
task sender
task_delay 10
socket_open $s dgram -> OS_SUCCESS 0x00060003
socket_send $s "telemetry" 8 -> 9
socket_send $s "nobody" 9 -> OS_ERROR
close $s -> OS_SUCCESS
end
