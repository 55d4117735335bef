integer :: a(4), b(4)
a = [1, 2, 3, 4]
!$omp parallel workshare
where (a > 2)
b = 10
elsewhere (a > 1)
b = 20
elsewhere
b = 30
end where
!$omp end parallel workshare
end
