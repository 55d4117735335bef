integer :: i, a(3)
a = 1
!$omp parallel workshare
a = 2
do i = 1, 3
a(i) = i
end do
!$omp end parallel workshare
end
