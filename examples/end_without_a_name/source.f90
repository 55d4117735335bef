integer :: a(2)
!$omp parallel workshare
a=7 ! x
!$omp end parallel workshare
end program
