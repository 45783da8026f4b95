osal-app 1
task main
socket_open $a dgram
socket_bind $a 7 -> OS_SUCCESS
socket_open $b dgram
socket_send $b "hi" 7 -> 2
select_multi $a,$b - check -> OS_SUCCESS "\x00\x06\x00\x01"
socket_recv $a 10 check -> 2 "hi"
socket_recv $a 10 check -> OS_ERROR_TIMEOUT
socket_bind $b 7 -> OS_ERROR
end
