osal-app 1
# What sockets refuse, in the order in which it is looked at.
task main
socket_open $s stream
socket_open $t stream
socket_open $d dgram
socket_bind $none 0 -> OS_ERR_INVALID_ARGUMENT
socket_bind $none 65536 -> OS_ERR_INVALID_ARGUMENT
socket_bind $none 1 -> OS_ERR_INVALID_ID
socket_bind $s 65535 -> OS_SUCCESS
socket_bind $s 65535 -> OS_ERR_INCORRECT_OBJ_STATE
socket_bind $t 65535 -> OS_ERROR
socket_bind $d 65535 -> OS_SUCCESS
socket_connect $t 65535 -> OS_ERROR
socket_accept $x $s check -> OS_ERR_INCORRECT_OBJ_STATE
socket_listen $t -> OS_ERR_INCORRECT_OBJ_STATE
socket_listen $d -> OS_ERR_INCORRECT_OBJ_TYPE
socket_listen $s -> OS_SUCCESS
socket_listen $s -> OS_ERR_INCORRECT_OBJ_STATE
socket_accept $x $s check -> OS_ERROR_TIMEOUT
socket_connect $s 65535 -> OS_ERR_INCORRECT_OBJ_STATE
read $d 0 check -> OS_ERR_INVALID_SIZE
read $d 1 check -> OS_ERR_INCORRECT_OBJ_TYPE
read $t 1 check -> OS_ERR_INCORRECT_OBJ_STATE
write $t "x" -> OS_ERR_INCORRECT_OBJ_STATE
lseek $t 0 set -> OS_ERR_INCORRECT_OBJ_TYPE
socket_shutdown $t both -> OS_ERR_INCORRECT_OBJ_STATE
socket_send $t "x" 65535 -> OS_ERR_INCORRECT_OBJ_TYPE
socket_send $none "" 0 -> OS_ERR_INVALID_SIZE
socket_send $d "x" 9 -> OS_ERROR
socket_recv $t 1 check -> OS_ERR_INCORRECT_OBJ_TYPE
select_one $none rw check -> OS_ERR_INVALID_ID
select_one $t rw check -> OS_ERROR_TIMEOUT
select_multi - - check -> OS_ERR_INVALID_ARGUMENT
select_multi $d,$none - check -> OS_ERR_INVALID_ID
select_multi $t $d,$t check -> OS_SUCCESS 0
hold $s -> OS_SUCCESS
close $s -> OS_ERR_OBJECT_IN_USE
release $s -> OS_SUCCESS
close $s -> OS_SUCCESS
socket_bind $t 65535 -> OS_SUCCESS
end
