osal-app 1
task main
stat "/a/a/a/a/a/a/a/a/a/a/a/a/a/a/a/a/a/a/a/a/a/a/a/a/a/a/a/a/a/a/a/a" -> OS_FS_ERR_PATH_TOO_LONG
stat "/ram/aaaaaaaaaaaaaaaaaaaa" -> OS_FS_ERR_NAME_TOO_LONG
stat "ram/x" -> OS_FS_ERR_PATH_INVALID
stat "/ram/x" -> OS_FS_ERR_PATH_INVALID
end
