integer :: n, a(5)
n = 3
!$omp parallel workshare
a(n:) = a(n:5)
!$omp end parallel workshare
end
