integer :: n
n = .true.
end
