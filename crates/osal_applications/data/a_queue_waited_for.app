osal-app 1
task main
queue_create $q "q" 1 4 -> OS_SUCCESS
task_create $t "w" w 0 10
task_delay 10
queue_delete $q -> OS_ERR_OBJECT_IN_USE
queue_put $q "x"
task_delay 10
queue_delete $q -> OS_SUCCESS
end
task w
queue_find $q "q"
queue_get $q 4 pend -> OS_SUCCESS "x"
end
