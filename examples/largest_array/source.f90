integer :: a(65536)
end
