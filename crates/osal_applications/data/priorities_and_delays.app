osal-app 1
task main
task_create $t "a" w 1024 100 -> OS_SUCCESS 0x00010002
task_info $t -> OS_SUCCESS 262244
task_set_priority $t 256 -> OS_ERR_INVALID_PRIORITY
task_set_priority $t 7 -> OS_SUCCESS
task_info $t -> OS_SUCCESS 262151
task_delay 20
task_find $u "a" -> OS_ERR_NAME_NOT_FOUND
end
task w
task_delay 10 -> OS_SUCCESS
end
