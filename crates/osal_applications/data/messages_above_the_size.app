osal-app 1
task main
queue_create $q "q" 2 4
queue_put $q "abcde" -> OS_QUEUE_INVALID_SIZE
queue_put $q "abcd" -> OS_SUCCESS
queue_get $q 3 check -> OS_QUEUE_INVALID_SIZE
queue_get $q 4 check -> OS_SUCCESS "abcd"
end
