integer :: n, r(0:2147483647, 0)
n = size(r, 1)
end
