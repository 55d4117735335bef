integer :: a(65537)
end
