integer :: a(2)
integer :: b(2)
!$omp parallel workshare
a = 5
b = a
!$omp end parallel workshare
end
