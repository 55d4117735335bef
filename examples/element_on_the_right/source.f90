integer :: a(5)
a = [1, 2, 3, 4, 5]
!$omp parallel workshare
a = a + a(1)
!$omp end parallel workshare
end
