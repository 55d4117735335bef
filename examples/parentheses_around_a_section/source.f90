integer :: a(2), v(2), w(2)
v = [1, 2]
w = [3, 1]
where (a > 0) a = a((v(w)))
end
