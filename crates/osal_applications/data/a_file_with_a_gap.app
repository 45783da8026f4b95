osal-app 1
task main
mkfs "/ramdev2" "v" 8
mount "/ramdev2" "/ram"
open $f "/ram/a" create rw
lseek $f 600 set -> 600
write $f "z" -> 1
stat "/ram/a" -> OS_SUCCESS 601
stat_volume "/ram" -> OS_SUCCESS "512 8 6"
lseek $f -1 end -> 600
read $f 10 check -> 1 "z"
read $f 10 check -> 0 ""
lseek $f -602 end -> OS_ERROR
remove "/ram/a" -> OS_ERR_OBJECT_IN_USE
close $f -> OS_SUCCESS
remove "/ram/a" -> OS_SUCCESS
unmount "/ram" -> OS_SUCCESS
rmfs "/ramdev2" -> OS_SUCCESS
end
