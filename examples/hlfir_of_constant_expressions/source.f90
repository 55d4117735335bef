integer, parameter :: n = 4
integer :: k
k = n * (n - 1) / 2
k = -(2147483647) - 1
k = 2147483647 + 1 - 1
k = 1 / 0
k = 2 ** 3 + n
k = k + 1 + 2
end
