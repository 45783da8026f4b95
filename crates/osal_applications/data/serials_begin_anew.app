osal-app 1
task main
repeat 65600
bin_sem_create $s "s" 0
bin_sem_delete $s
end
bin_sem_create $s "s" 0 -> OS_SUCCESS 0x00040051
end
