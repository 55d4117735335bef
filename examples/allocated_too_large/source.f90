integer, allocatable :: p(:)
allocate (p(65537))
end
