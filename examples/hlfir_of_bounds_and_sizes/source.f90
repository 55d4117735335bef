integer, allocatable :: p(:, :)
integer :: a(0:4, 3), k
logical :: q
k = size(a) + size(a, 2)
k = lbound(a, 1) - ubound(p, 2)
q = allocated(p)
k = p(1, 2) + size(p)
p = a
p(:, 2) = a(1, :2)
k = (p(2, 1))
end
