% Numbers, and records that are taken apart by their features.
fun {Sum Xs}
   case Xs
   of nil then 0
   [] X|Xr then X+{Sum Xr}
   end
end
fun {Power Base Exponent}
   if Exponent==0 then 1
   elseif Exponent mod 2==0 then {Power Base*Base Exponent div 2}
   else Base*{Power Base Exponent-1}
   end
end
fun {Divisor X Y}
   if Y==0 then X else {Divisor Y X mod Y} end
end
fun {Fields Record}
   fun {Each Features}
      case Features
      of nil then nil
      [] F|Fr then Record.F|{Each Fr}
      end
   end
in
   {Each {Arity Record}}
end
Order=order(apples:12 pears:7 plums:30)
in
{Show {Sum {Fields Order}}}
{Show {Label Order}#{Width Order}#{Arity Order}}
{Show {Power 3 40}}
{Show {Divisor 1071 462}}
{Show Order==order(pears:7 plums:30 apples:12)}
{Show ~7 div 2#~7 mod 2}
