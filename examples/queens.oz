% Queens on a board of six rows and columns, none of which attacks another: the row of each.
proc {Script Rows}
   fun {IsSafe Row Others Away}
      case Others
      of nil then true
      [] Other|Rest then
         Row\=Other andthen Row-Other\=Away andthen Other-Row\=Away andthen {IsSafe Row Rest Away+1}
      end
   end
   proc {Place Column Others}
      if Column==0 then Rows=Others
      else
         Row
      in
         choice Row=1 [] Row=2 [] Row=3 [] Row=4 [] Row=5 [] Row=6 end
         if {IsSafe Row Others 1} then {Place Column-1 Row|Others} else fail end
      end
   end
in
   {Place 6 nil}
end
