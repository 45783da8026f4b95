osal-app 1
# A server takes one connection and answers on it; the client closes first.
task main
socket_open $l stream -> OS_SUCCESS 0x00060001
socket_bind $l 5000 -> OS_SUCCESS
socket_listen $l -> OS_SUCCESS
task_create $t "client" client 1024 10
socket_accept $p $l pend -> OS_SUCCESS 0x00060003
read $p 16 pend -> 4 "ping"
write $p "pong" -> 4
read $p 16 1000 -> 0 ""
close $p -> OS_SUCCESS
end
task client
socket_open $c stream -> OS_SUCCESS
socket_connect $c 5000 -> OS_SUCCESS
write $c "ping" -> 4
read $c 16 pend -> 4 "pong"
close $c -> OS_SUCCESS
end
