osal-app 1
task main
bin_sem_create $s "s"
end
