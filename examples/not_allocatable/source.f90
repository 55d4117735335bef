integer :: a(3)
allocate (a(3))
end
