integer :: n
if (n == 0) n = 1
end
