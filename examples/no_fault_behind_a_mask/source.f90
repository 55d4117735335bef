integer :: a(3), b(3), c(3)
b = [6, 7, 8]
c = [2, 0, 4]
!$omp parallel workshare
where (c /= 0) a = b / c
!$omp end parallel workshare
end
