osal-app 1
task main
socket_shut $s
end
