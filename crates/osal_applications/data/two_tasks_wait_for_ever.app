osal-app 1
task main
bin_sem_create $a "a" 0
bin_sem_create $b "b" 0
task_create $t "w" w 0 1
bin_sem_take $a pend
end
task w
bin_sem_find $b "b"
bin_sem_take $b pend
end
