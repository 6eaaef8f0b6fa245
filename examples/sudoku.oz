% A sudoku of four rows: each row, each column and each corner has the numbers from 1 to 4.
proc {Script Board}
   A B C D
   E F G H
   I J K L
   M N O P
   proc {All Groups}
      case Groups
      of nil then skip
      [] Group|Rest then
         {FD.distinct Group}
         {All Rest}
      end
   end
in
   Board=board([A B C D]
               [E F G H]
               [I J K L]
               [M N O P])
   [A B C D E F G H I J K L M N O P]:::1#4
   {All [[A B C D] [E F G H] [I J K L] [M N O P]]}
   {All [[A E I M] [B F J N] [C G K O] [D H L P]]}
   {All [[A B E F] [C D G H] [I J M N] [K L O P]]}
   % What is given.
   A=1
   H=1
   J=2
   O=3
   {FD.distribute ff [A B C D E F G H I J K L M N O P]}
end
