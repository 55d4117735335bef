integer :: i, a(3)
forall (i = 1:3:0) a(i) = 1
end
