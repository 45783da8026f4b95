osal-app 1
task main
bin_sem_create $s "s" 0 -> OS_SUCCESS 0x00040001
bin_sem_delete $s -> OS_SUCCESS
bin_sem_give $s -> OS_ERR_INVALID_ID
bin_sem_create $s "s" 0 -> OS_SUCCESS 0x00040002
bin_sem_give $s -> OS_SUCCESS
bin_sem_info $s -> OS_SUCCESS 1
bin_sem_take $s check -> OS_SUCCESS
bin_sem_info $s -> OS_SUCCESS "s"
hold $s -> OS_SUCCESS
bin_sem_delete $s -> OS_ERR_OBJECT_IN_USE
release $s -> OS_SUCCESS
release $s -> OS_ERR_INCORRECT_OBJ_STATE
bin_sem_find $t "s" -> OS_SUCCESS 0x00040002
bin_sem_delete $t -> OS_SUCCESS
bin_sem_find $t "s" -> OS_ERR_NAME_NOT_FOUND
hold $u -> OS_ERR_INVALID_ID
release $s -> OS_ERR_INVALID_ID
end
