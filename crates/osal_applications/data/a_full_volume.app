osal-app 1
task main
mkfs "/ramdev0" "v" 4 -> OS_SUCCESS
mount "/ramdev0" "/ram" -> OS_SUCCESS
open $f "/ram/log" create wo -> OS_SUCCESS 0x00060001
write $f fill 3000 65 -> 2048
write $f "x" -> OS_ERROR
stat_volume "/ram" -> OS_SUCCESS 0
mkfs "/ramdev0" "v" 4 -> OS_FS_ERR_DEVICE_NOT_FREE
end
