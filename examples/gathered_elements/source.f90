integer :: a(3), v(3)
a = [10, 20, 30]
v = [3, 1, 2]
!$omp parallel workshare
a = a(v)
!$omp end parallel workshare
end
