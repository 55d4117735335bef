integer, allocatable :: p(:)
end
