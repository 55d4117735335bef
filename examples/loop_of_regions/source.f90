integer :: i, a(3)
do i = 1, 3
!$omp parallel workshare
a(i) = i*i
!$omp end parallel workshare
end do
end
