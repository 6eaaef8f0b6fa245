% Lists are pairs and `empty` here. One list behind another, and a list turned round.
proc {Append Xs Ys Zs}
   case Xs
   of empty then Zs=Ys
   [] pair(X Rest) then
      Tail in
      Zs=pair(X Tail)
      {Append Rest Ys Tail}
   end
end
proc {Turn Xs Done Ys}
   case Xs
   of empty then Ys=Done
   [] pair(X Rest) then {Turn Rest pair(X Done) Ys}
   end
end
All Turned
in
{Append pair(mon pair(tue empty)) pair(wed empty) All}
{Turn All empty Turned}
{Show All}
{Show Turned}
