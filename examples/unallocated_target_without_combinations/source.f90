integer :: i
integer, allocatable :: p(:)
forall (i = 1:0) p(i) = 1
end
