osal-app 1
task main
end