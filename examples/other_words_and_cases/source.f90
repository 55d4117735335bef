PROGRAM Fill
IMPLICIT NONE
Integer, Dimension(3) :: A
!$OMP Parallel WorkShare Default(Shared)
a = &
  & 7
!$omp END parallel workshare
EndProgram FILL
