integer :: a(3), b(4)
where (a == 0)
a = 1
b = 2
end where
end
