integer :: i
do i = 1, 3
i = .true.
end do
end
