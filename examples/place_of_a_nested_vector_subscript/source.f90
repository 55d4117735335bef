integer :: a(2,2), v(2), w(2)
v = 1
w = [1, 5]
a = a([1, 2], v(w))
end
