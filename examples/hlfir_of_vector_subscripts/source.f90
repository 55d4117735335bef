integer :: a(5), v(2), b(2, 5), k
a(v) = b(:, k)
b(1, v) = a(v + 1)
a(v(1:2)) = a((v))
a([k, 3]) = 0
end
