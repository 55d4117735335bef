integer, dimension(n) :: a(2)
end
