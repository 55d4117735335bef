integer, allocatable :: p(:)
p = 3
end
