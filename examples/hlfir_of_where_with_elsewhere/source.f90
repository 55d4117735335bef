integer :: a(4)
integer, allocatable :: p(:)
where (a > 1)
  a = 1
  where (a > 3) a = 2
elsewhere (a < 0)
  p = a
elsewhere
  a = 3
end where
where (p == 1) p = 0
end
