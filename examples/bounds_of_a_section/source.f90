integer :: b(0:2)
integer, allocatable :: p(:)
b = [5, 6, 7]
!$omp parallel workshare
p = b
p = b(1:2)
!$omp end parallel workshare
end
