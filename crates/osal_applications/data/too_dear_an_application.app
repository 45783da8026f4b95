osal-app 1
task main
repeat 100000
bin_sem_take $c pend
end
end
