% A magic square: the numbers from 1 to 9, with one sum in all rows, columns and diagonals. Of squares that are turned or mirrored, one.
proc {Script Square}
   A B C
   D E F
   G H I
in
   Square=[A B C D E F G H I]
   Square:::1#9
   {FD.distinct Square}
   A+B+C=:15
   D+E+F=:15
   G+H+I=:15
   A+D+G=:15
   B+E+H=:15
   C+F+I=:15
   A+E+I=:15
   C+E+G=:15
   A<:C
   A<:G
   A<:I
   C<:G
   {FD.distribute split Square}
end
