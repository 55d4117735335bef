integer :: n
n = m
n = *
end
