osal-app 1
task main
queue_create $q "q" 3 1024 -> OS_SUCCESS 0x00020001
queue_put $q fill 3 65 -> OS_SUCCESS
queue_put $q "\x00\n\"\\" -> OS_SUCCESS
queue_put $q fill 1025 0 -> OS_QUEUE_INVALID_SIZE
queue_put $q "" -> OS_ERR_INVALID_SIZE
queue_get $q 1024 pend -> OS_SUCCESS "AAA"
queue_get $q 1024 check -> OS_SUCCESS 4
queue_info $q -> OS_SUCCESS 65537
queue_info $q -> OS_SUCCESS "q"
end
