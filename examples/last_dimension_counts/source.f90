integer, dimension(2), dimension(3) :: a
end
