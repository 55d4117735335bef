integer :: a(3)
read *, a
end
