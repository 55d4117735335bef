integer, allocatable :: p(:)
allocate (p(1:2))
read *, p
end
