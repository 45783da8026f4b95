osal-app 1
task main
bin_sem_create $s "a" 0
bin_sem_create $s "b" 0
bin_sem_create $s "c" 0
bin_sem_create $s "d" 0
bin_sem_create $s "e" 0
bin_sem_create $s "f" 0
bin_sem_create $s "g" 0
bin_sem_create $s "h" 0
bin_sem_create $s "i" 0
bin_sem_create $s "j" 0
bin_sem_create $s "k" 0
bin_sem_create $s "l" 0
bin_sem_create $s "m" 0
bin_sem_create $s "n" 0
bin_sem_create $s "o" 0
bin_sem_create $s "p" 0
bin_sem_create $s "q" 0
bin_sem_create $s "r" 0
bin_sem_create $s "s" 0
bin_sem_create $s "t" 0
bin_sem_create $s "u" 0 -> OS_ERR_NO_FREE_IDS
bin_sem_create $s "a" 0 -> OS_ERR_NAME_TAKEN
end
