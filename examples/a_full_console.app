osal-app 1
task main
console_disable -> OS_SUCCESS
console_write "x" -> OS_SUCCESS
console_enable
console_write fill 4096 97 -> OS_SUCCESS
console_write "b" -> OS_QUEUE_FULL
task_delay 1
console_write "b\n" -> OS_SUCCESS
end
