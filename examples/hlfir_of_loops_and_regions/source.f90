integer :: i, k, a(2)
do i = 1, 3
  k = k + i
  do k = 4, 1, -1
  end do
end do
!$omp parallel workshare
a = 1
where (a > 0) a = 2
forall (i = 1:2) a(i) = i
!$omp end parallel workshare
!$omp parallel
!$omp workshare
k = 1
!$omp end workshare
!$omp workshare
!$omp end workshare
!$omp end parallel
end
