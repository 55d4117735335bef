integer :: n
n = *
?
end
