integer :: a(2, 2), k
logical :: m(2)
k = sum(a) + product(a(1, :))
k = minval(a) - maxval([k, 2])
k = count(m)
m = any(m .and. a(1, :) > 0)
m(1) = all(m)
end
