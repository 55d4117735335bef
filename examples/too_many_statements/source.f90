integer :: i, j
do i = 1, 20000
do j = 1, 20000
end do
end do
end
