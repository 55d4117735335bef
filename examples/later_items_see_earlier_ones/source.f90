integer :: n, a(3)
read *, n, a(1:3:n)
end
