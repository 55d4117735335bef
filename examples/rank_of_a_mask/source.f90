integer :: a(3), c(2,2)
where (a > 0)
c = 1
end where
end
