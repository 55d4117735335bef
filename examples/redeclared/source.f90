integer :: n
logical :: n
end
