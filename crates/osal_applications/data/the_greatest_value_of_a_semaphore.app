osal-app 1
task main
count_sem_create $c "c" 32768 -> OS_INVALID_SEM_VALUE
count_sem_create $c "c" 32767 -> OS_SUCCESS
count_sem_give $c -> OS_SEM_FAILURE
hold $c -> OS_SUCCESS
count_sem_delete $c -> OS_ERR_OBJECT_IN_USE
release $c -> OS_SUCCESS
release $c -> OS_ERR_INCORRECT_OBJ_STATE
count_sem_delete $c -> OS_SUCCESS
end
