integer, allocatable :: p(:)
integer :: n
n = 2
allocate (p(n))
end
