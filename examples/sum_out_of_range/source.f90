integer :: n
!$omp parallel workshare
n = sum([2147483647, 1])
!$omp end parallel workshare
end
