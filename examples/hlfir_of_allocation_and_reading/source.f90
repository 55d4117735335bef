program reading
  integer, allocatable :: p(:), q(:, :)
  integer :: n, a(3)
  logical :: m
  allocate (p(0:n), q(2, n + 1))
  read *, n, a(2), a(1:2), q, m
  deallocate (p, q)
end program reading
