integer :: a(5)
a = [1, 2, 3, 4, 5]
!$omp parallel workshare
a(2:5) = a(1:4)
!$omp end parallel workshare
end
