% A producer, a filter and a consumer, each in a thread of its own. Each waits for the part of the list that is not made yet.
fun {Count From To}
   if From>To then nil else From|{Count From+1 To} end
end
fun {Filter Xs Test}
   case Xs
   of nil then nil
   [] X|Xr then
      if {Test X} then X|{Filter Xr Test} else {Filter Xr Test} end
   end
end
proc {Consume Xs Sum}
   case Xs
   of nil then {Show sum(Sum)}
   [] X|Xr then
      {Show X}
      {Consume Xr Sum+X}
   end
end
Numbers Threes
in
thread {Consume Threes 0} end
thread Threes={Filter Numbers fun {$ X} X mod 3==0 end} end
thread Numbers={Count 1 12} end
{Show started}
