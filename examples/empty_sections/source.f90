integer :: a(3), b(3)
!$omp parallel workshare
a(3:2) = b(9:8)
!$omp end parallel workshare
end
