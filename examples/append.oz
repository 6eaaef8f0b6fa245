% One list behind another, a list turned round, and a function on each element.
fun {Append Xs Ys}
   case Xs
   of nil then Ys
   [] X|Xr then X|{Append Xr Ys}
   end
end
fun {Reverse Xs}
   fun {Turn Xs Done}
      case Xs
      of nil then Done
      [] X|Xr then {Turn Xr X|Done}
      end
   end
in
   {Turn Xs nil}
end
fun {Map Xs F}
   case Xs
   of nil then nil
   [] X|Xr then {F X}|{Map Xr F}
   end
end
Week
in
Week={Append [mon tue] [wed thu 'Friday']}
{Show Week}
{Show {Reverse Week}}
{Show {Map Week fun {$ Day} Day#open end}}
{Show {Append "so" [&!]}}
