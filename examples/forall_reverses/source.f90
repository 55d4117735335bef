integer :: i, a(3)
a = [1, 2, 3]
!$omp parallel workshare
forall (i=1:3) a(i) = a(4-i)
!$omp end parallel workshare
end
