integer :: a(3), b(3), c(3), d(3)
b = [2147483647, 1, 1]
c = [1, 1, 0]
d = [1, 1, 1]
!$omp parallel workshare
a = (b/c) + d
!$omp end parallel workshare
end
