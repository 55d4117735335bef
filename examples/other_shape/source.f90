integer :: a(3), b(3)
!$omp parallel workshare
a = b(1:2)
!$omp end parallel workshare
end
