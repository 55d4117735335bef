integer :: i, j, n, a(3, 3)
forall (i = 1:n, j = 1:3:2, a(i, j) > i) a(i, j) = -a(j, i) + n
forall (i = n:1:-1)
  a(i, 1) = i
  a(1, i) = a(i, 1)
end forall
end
