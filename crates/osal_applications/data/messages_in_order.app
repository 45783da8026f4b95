osal-app 1
task main
queue_create $q "q" 2 4
queue_put $q "a" -> OS_SUCCESS
queue_put $q "b" -> OS_SUCCESS
queue_put $q "c" -> OS_QUEUE_FULL
queue_get $q 4 check -> OS_SUCCESS "a"
queue_get $q 4 check -> OS_SUCCESS "b"
queue_get $q 4 check -> OS_QUEUE_EMPTY
queue_create $r "r" 51 4 -> OS_QUEUE_INVALID_SIZE
end
