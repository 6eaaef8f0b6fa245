% Eight queens on a board, none of which attacks another: the row of each, from column to column. Two queens attack each other
% in one row, and where their rows are as far apart as their columns.
proc {Script Rows}
   % A queen in each of N columns, which begin with column I.
   fun {Queens I N}
      if I>N then nil else queen(I _)|{Queens I+1 N} end
   end
   fun {RowsOf Queens}
      case Queens
      of nil then nil
      [] queen(_ Row)|Rest then Row|{RowsOf Rest}
      end
   end
   % The rows, each moved by its column times Slope and 8 rows up.
   fun {Moved Queens Slope}
      case Queens
      of nil then nil
      [] queen(I Row)|Rest then
         Place Away
      in
         Away=8+Slope*I
         Row+Away=:Place
         Place|{Moved Rest Slope}
      end
   end
   All={Queens 1 8}
in
   Rows={RowsOf All}
   Rows:::1#8
   {FD.distinct Rows}
   {FD.distinct {Moved All 1}}
   {FD.distinct {Moved All ~1}}
   {FD.distribute ff Rows}
end
