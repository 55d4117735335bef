integer :: m, q, e(3)
!$omp parallel workshare
m = minval(e(2:1))
q = product([65536, 65536, 0])
!$omp end parallel workshare
end
