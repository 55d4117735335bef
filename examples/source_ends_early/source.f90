integer :: a(3)
a = 1
