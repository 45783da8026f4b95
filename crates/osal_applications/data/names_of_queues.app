osal-app 1
task main
queue_create $q "abcdefghijklmnopqrs" 1 1 -> OS_SUCCESS
queue_create $q "abcdefghijklmnopqrst" 1 1 -> OS_ERR_NAME_TOO_LONG
queue_create $q "" 1 1 -> OS_ERR_INVALID_ARGUMENT
end
