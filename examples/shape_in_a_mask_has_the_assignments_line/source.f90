integer :: a(3), b(2), c(3)
where (a > sum(b + c))
a = 1
end where
end
