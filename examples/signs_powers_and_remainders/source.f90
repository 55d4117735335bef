integer :: i, j, k, m
i = -7
j = 3
!$omp parallel workshare
k = -j**2 + i/2
m = mod(i, j)*10 + modulo(i, j)
!$omp end parallel workshare
end
