INTEGER :: A(2)
A = [1, &
  2] ! two
A(1) = A(2); A(2) = 9
END
