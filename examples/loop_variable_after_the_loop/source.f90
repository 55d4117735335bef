integer :: while
do while = 1, 3
end do
end
