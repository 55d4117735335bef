integer :: a(10)
a = [1,2,3,4,5,6,7,8,9,10]
!$omp parallel workshare
a(1:9:2) = a(2:10:2)
!$omp end parallel workshare
end
