integer :: i, a(3)
!$omp parallel workshare
forall (i = 1:3) a(i/2 + 1) = i
!$omp end parallel workshare
end
