integer :: n, m
read *, n
read *, m
end
