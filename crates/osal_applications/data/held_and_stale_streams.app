osal-app 1
task main
mkfs "/ramdev0" "v" 16 -> OS_SUCCESS
mkfs "/ramdev" "v" 16 -> OS_ERR_INVALID_ARGUMENT
mkfs "/ramdev3" "v" 0 -> OS_ERR_INVALID_SIZE
mkfs "/ramdev3" "v" 4097 -> OS_ERR_INVALID_SIZE
mkfs "/ramdev3" "" 4 -> OS_ERR_INVALID_ARGUMENT
mount "/ramdev3" "/ram" -> OS_ERR_NAME_NOT_FOUND
mount "/ramdev0" "/ram/x" -> OS_FS_ERR_PATH_INVALID
mount "/ramdev0" "/ram" -> OS_SUCCESS
mount "/ramdev0" "/other" -> OS_ERR_INCORRECT_OBJ_STATE
rmfs "/ramdev0" -> OS_ERR_INCORRECT_OBJ_STATE
open $f "/ram/a" none ro -> OS_ERROR
open $f "/ram/a" both ro -> OS_ERROR
open $f "/ram/a" create rw -> OS_SUCCESS 0x00060001
write $f "abc" -> 3
read $f 0 check -> OS_ERR_INVALID_SIZE
lseek $f 1 set -> 1
read $f 1024 pend -> 2 "bc"
hold $f -> OS_SUCCESS
close $f -> OS_ERR_OBJECT_IN_USE
release $f -> OS_SUCCESS
close $f -> OS_SUCCESS
read $f 4 check -> OS_ERR_INVALID_ID
write $f "x" -> OS_ERR_INVALID_ID
lseek $f 0 set -> OS_ERR_INVALID_ID
close $f -> OS_ERR_INVALID_ID
open $g "/ram/a" truncate wo -> OS_SUCCESS 0x00060002
read $g 4 check -> OS_ERROR
stat "/ram/a" -> OS_SUCCESS 0
unmount "/ram" -> OS_ERR_OBJECT_IN_USE
close $g -> OS_SUCCESS
dir_open $x "/ram" -> OS_SUCCESS 0x00070001
dir_read $x -> OS_SUCCESS "a"
dir_rewind $x -> OS_SUCCESS
dir_read $x -> OS_SUCCESS "a"
unmount "/ram" -> OS_ERR_OBJECT_IN_USE
dir_close $x -> OS_SUCCESS
dir_read $x -> OS_ERR_INVALID_ID
unmount "/ram" -> OS_SUCCESS
unmount "/ram" -> OS_ERR_NAME_NOT_FOUND
rmfs "/ramdev0" -> OS_SUCCESS
rmfs "/ramdev0" -> OS_ERR_NAME_NOT_FOUND
end
