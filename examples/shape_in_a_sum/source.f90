integer :: n, a(3), b(2)
!$omp parallel workshare
n = sum(a + b)
!$omp end parallel workshare
end
