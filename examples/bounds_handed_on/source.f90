integer :: b(0:2)
integer, allocatable :: p(:)
b = [5, 6, 7]
!$omp parallel workshare
p = b
!$omp end parallel workshare
end
