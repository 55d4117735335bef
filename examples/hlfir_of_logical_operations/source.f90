logical :: p, q
integer :: m, n
logical, parameter :: yes = .true.
p = m == n .and. m /= n
q = m <= n .or. m > n .eqv. .not. p
p = m >= n .neqv. yes
q = .false.
p = m < n
end
