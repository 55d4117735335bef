integer :: n
n = 1 &
& &
& + 1
end
