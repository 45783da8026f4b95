osal-app 1
task main
mkfs "/ramdev2" "v" 8
mount "/ramdev2" "/a"
mkfs "/ramdev3" "w" 1
mount "/ramdev3" "/b"
open $f "/a/x" create wo
write $f "hi" -> 2
cp "/a/x" "/b/y" -> OS_SUCCESS
stat "/b/y" -> OS_SUCCESS 2
write $f fill 600 65 -> 600
cp "/a/x" "/b/y" -> OS_ERROR
stat "/b/y" -> OS_SUCCESS 2
end
