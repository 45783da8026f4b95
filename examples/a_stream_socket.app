osal-app 1
task main
socket_open $l stream -> OS_SUCCESS 0x00060001
socket_bind $l 5000 -> OS_SUCCESS
socket_listen $l -> OS_SUCCESS
socket_open $c stream -> OS_SUCCESS 0x00060002
socket_connect $c 5000 -> OS_SUCCESS
socket_accept $p $l check -> OS_SUCCESS 0x00060003
write $c "hello" -> 5
select_one $p r check -> OS_SUCCESS 1
read $p 3 check -> 3 "hel"
read $p 3 check -> 2 "lo"
socket_shutdown $c write -> OS_SUCCESS
read $p 3 check -> 0 ""
end
