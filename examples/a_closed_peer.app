osal-app 1
# What was sent stays readable after the sender has closed, and a listener that closes takes its pending ends along.
task main
socket_open $l stream
socket_bind $l 80 -> OS_SUCCESS
socket_listen $l -> OS_SUCCESS
socket_open $c stream
socket_connect $c 80 -> OS_SUCCESS
write $c fill 4096 46 -> 4096
write $c "x" -> OS_ERROR
select_one $c w check -> OS_ERROR_TIMEOUT
socket_accept $p $l check -> OS_SUCCESS
read $p 1024 check -> 1024
write $c fill 2048 46 -> 1024
close $c -> OS_SUCCESS
write $p "x" -> OS_ERR_STREAM_DISCONNECTED
read $p 1024 check -> 1024
read $p 1024 check -> 1024
read $p 1024 check -> 1024
read $p 1024 check -> 1024
read $p 1024 check -> 0 ""
socket_open $c stream
socket_connect $c 80 -> OS_SUCCESS
read $c 1 check -> OS_ERROR_TIMEOUT
close $l -> OS_SUCCESS
read $c 1 check -> 0 ""
write $c "x" -> OS_ERR_STREAM_DISCONNECTED
select_one $c rw check -> OS_SUCCESS 3
end
