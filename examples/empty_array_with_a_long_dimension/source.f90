integer :: n, r(0:2147483647, 0)
n = sum(r(:,:)) + 1
end
