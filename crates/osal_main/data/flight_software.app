osal-app 1
task main
mkfs "/ramdev0" "vol" 64 -> OS_SUCCESS
mount "/ramdev0" "/ram" -> OS_SUCCESS
queue_create $q "CMD_PIPE" 10 16 -> OS_SUCCESS
bin_sem_create $w "TLM_WAKE" 0 -> OS_SUCCESS
count_sem_create $d "DONE" 0
task_create $t "CMD" cmd 4096 50 -> OS_SUCCESS 0x00010002
task_create $t "TLM" tlm 4096 60 -> OS_SUCCESS 0x00010003
task_create $t "LOG" log 4096 90 -> OS_SUCCESS 0x00010004
timebase_create $b "CLK" -> OS_SUCCESS
timer_add $h "HZ" $b hz -> OS_SUCCESS
timer_set $h 1000000 1000000 -> OS_SUCCESS
repeat 3
timebase_tick $b 1000000 -> OS_SUCCESS 1
count_sem_take $d pend
end
queue_put $q "EXIT" -> OS_SUCCESS
end
task cmd
queue_find $q "CMD_PIPE" -> OS_SUCCESS
queue_get $q 16 pend -> OS_SUCCESS "NOOP"
queue_get $q 16 pend -> OS_SUCCESS "EXIT"
end
task tlm
bin_sem_find $w "TLM_WAKE"
queue_find $q "CMD_PIPE"
count_sem_find $d "DONE"
queue_put $q "NOOP" -> OS_SUCCESS
repeat 3
bin_sem_take $w pend -> OS_SUCCESS
count_sem_give $d
end
end
task log
open $f "/ram/log" create wo -> OS_SUCCESS 0x00060001
write $f "boot\n" -> 5
close $f -> OS_SUCCESS
console_write "log ready\n" -> OS_SUCCESS
end
handler hz
bin_sem_find $w "TLM_WAKE"
bin_sem_give $w -> OS_SUCCESS
end
