integer :: a(1), b(1)
a = 1
!$omp parallel workshare
where (a > 0)
a = -a
elsewhere (1/b > 0)
end where
!$omp end parallel workshare
end
