integer :: a(2)
!$omp parallel workshare
a = c
!$omp end parallel workshare
end
