osal-app 1
task main
queue_create $q "q" 2 4
queue_get $q 4 50 -> OS_QUEUE_TIMEOUT
end
