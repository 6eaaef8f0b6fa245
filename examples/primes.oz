% The primes by a sieve, as a list without end. Each part of it is made when somebody goes through it, and once.
fun lazy {From N}
   N|{From N+1}
end
fun lazy {Filter Xs Test}
   case Xs
   of X|Xr then
      if {Test X} then X|{Filter Xr Test} else {Filter Xr Test} end
   end
end
fun lazy {Sieve Xs}
   case Xs
   of X|Xr then X|{Sieve {Filter Xr fun {$ Y} Y mod X\=0 end}}
   end
end
fun {Take N Xs}
   if N==0 then nil
   else
      case Xs
      of X|Xr then X|{Take N-1 Xr}
      end
   end
end

% The first two of Xs that stand apart by so much.
fun {FirstPair Xs Apart}
   case Xs
   of X|Xr then
      case Xr
      of Y|_ then
         if Y-X==Apart then X#Y else {FirstPair Xr Apart} end
      end
   end
end
Primes={Sieve {From 2}}
in
{Show Primes}
{Show {Take 10 Primes}}
{Show {FirstPair Primes 4}}
{Show {FirstPair Primes 6}}
{Show {FirstPair Primes 8}}
{Show {Take 5 Primes}}
{Show Primes}
