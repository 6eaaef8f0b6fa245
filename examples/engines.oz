% Search engines, written with spaces. A space that offers alternatives is copied, and each copy goes on with one of them.

% The first solution X, from left to right, as one(X); or none.
fun {First Script}
   fun {In S}
      case {Ask S}
      of succeeded then one({Merge S})
      [] alternatives(N) then {Each S 1 N}
      [] failed then none
      [] raised(E) then raise E end
      end
   end
   fun {Each S I N}
      if I==N then
         {Commit S N}
         {In S}
      else
         C={Clone S}
      in
         {Commit C I}
         case {In C}
         of none then {Each S I+1 N}
         [] Found then Found
         end
      end
   end
in
   {In {NewSpace Script}}
end

% All solutions, from left to right. The list is made from its end, so the last alternative is the first to be gone through.
fun {All Script}
   fun {In S Rest}
      case {Ask S}
      of succeeded then {Merge S}|Rest
      [] alternatives(N) then {Each S N Rest}
      [] failed then Rest
      [] raised(E) then raise E end
      end
   end
   fun {Each S N Rest}
      if N==1 then
         {Commit S 1}
         {In S Rest}
      else
         C={Clone S}
      in
         {Commit C N}
         {Each S N-1 {In C Rest}}
      end
   end
in
   {In {NewSpace Script} nil}
end

% All solutions that take no more than so many choices. So it comes to an end also where the choices do not.
fun {Within Script Choices}
   fun {In S Left Rest}
      case {Ask S}
      of succeeded then {Merge S}|Rest
      [] alternatives(N) then if Left==0 then Rest else {Each S N Left-1 Rest} end
      [] failed then Rest
      [] raised(E) then raise E end
      end
   end
   fun {Each S N Left Rest}
      if N==1 then
         {Commit S 1}
         {In S Left Rest}
      else
         C={Clone S}
      in
         {Commit C N}
         {Each S N-1 Left {In C Left Rest}}
      end
   end
in
   {In {NewSpace Script} Choices nil}
end

% The solutions that take the fewest choices. Without a solution it has no end.
fun {Nearest Script}
   fun {From Choices}
      case {Within Script Choices}
      of nil then {From Choices+1}
      [] Found then Found
      end
   end
in
   {From 0}
end

% Four queens on a board of four columns, a column for each, so that none attacks another.
proc {Queens Columns}
   proc {Beside X Ys Far}
      case Ys
      of nil then skip
      [] Y|Yr then
         thread if X==Y orelse X==Y+Far orelse X==Y-Far then fail end end
         {Beside X Yr Far+1}
      end
   end
   proc {Rules Xs}
      case Xs
      of nil then skip
      [] X|Xr then
         {Beside X Xr 1}
         {Rules Xr}
      end
   end
   proc {Place Xs}
      case Xs
      of nil then skip
      [] X|Xr then
         {Choose 4 X}
         {Place Xr}
      end
   end
in
   Columns=[_ _ _ _]
   {Rules Columns}
   {Place Columns}
end

% A walk home from the market. The streets go round in circles, so walks may be of any length, and the leftmost has no end.
proc {Walk Places}
   proc {From Place Places}
      Rest
   in
      Places=Place|Rest
      case Place
      of home then Rest=nil
      [] market then choice {From church Rest} [] {From bridge Rest} end
      [] church then choice {From market Rest} [] {From bridge Rest} end
      [] bridge then choice {From church Rest} [] {From home Rest} end
      end
   end
in
   {From market Places}
end
in
{Show {First Queens}}
{Show {All Queens}}
{Show {First proc {$ X} choice X=1 X=2 [] fail end end}}
{Show {Within Walk 3}}
{Show {Nearest Walk}}
