osal-app 1
# A log is kept in a file and told on the console, which the program writes out.
task main
mkfs "/ramdev0" "log" 16 -> OS_SUCCESS
mount "/ramdev0" "/log" -> OS_SUCCESS
open $f "/log/boot" create rw -> OS_SUCCESS 0x00060001
console_write "boot: volume is mounted\n" -> OS_SUCCESS
write $f "volume\n" -> 7
console_write "boot: log is open\n" -> OS_SUCCESS
lseek $f 0 set -> 0
read $f 64 check -> 7 "volume\n"
close $f -> OS_SUCCESS
end
