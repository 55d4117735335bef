integer :: a(3), b(0:2), k
logical :: m(3)
integer :: c(2, 2)
a = a + k * b
a = (b)
a = +a - (-b)
m = a < 2 .and. .not. m
a = merge(a, b, m)
c = abs(c) ** 2
a = [1, k, 3]
m = [.true., m(1), .false.]
a(:) = min(a(1:3), b, k)
end
