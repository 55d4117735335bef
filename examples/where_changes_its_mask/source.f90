integer :: a(3), b(3)
a = [-1, 2, -3]
!$omp parallel workshare
where (a < 0)
a = -a
b = a
elsewhere
b = 0
end where
!$omp end parallel workshare
end
