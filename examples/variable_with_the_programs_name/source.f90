program n
integer :: n
end
