osal-app 1
task main
repeat 99999
bin_sem_take $c pend
end
end
