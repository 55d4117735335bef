integer :: a(3), b(3), v(3)
v = [1, 4, 2]
!$omp parallel workshare
a = b(v)
!$omp end parallel workshare
end
