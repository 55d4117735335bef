integer :: a(3), b(3), v(3)
b = [7, 8, 9]
v = [1, 2, 1]
!$omp parallel workshare
! scatter
a(v) = b
!$omp end parallel workshare
end
