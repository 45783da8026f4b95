osal-app 1
task main
mkfs "/ramdev1" "v" 8
mount "/ramdev1" "/ram"
mkdir "/ram/d" -> OS_SUCCESS
open $f "/ram/d/b" create wo
close $f
cp "/ram/d/b" "/ram/d/a" -> OS_SUCCESS
dir_open $x "/ram/d" -> OS_SUCCESS 0x00070001
dir_read $x -> OS_SUCCESS "a"
dir_read $x -> OS_SUCCESS "b"
dir_read $x -> OS_ERROR
rmdir "/ram/d" -> OS_ERR_OBJECT_IN_USE
dir_close $x -> OS_SUCCESS
rmdir "/ram/d" -> OS_ERROR
rename "/ram/d" "/ram/e" -> OS_SUCCESS
stat "/ram/e/a" -> OS_SUCCESS "file"
end
