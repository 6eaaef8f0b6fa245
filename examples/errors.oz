% What is raised goes to the nearest `try` whose patterns match it. A `try` lets pass what none of its patterns matches.
fun {Share Total People}
   if People==0 then raise nobody(Total) end
   else Total div People
   end
end
proc {Report Total People}
   try {Show {Share Total People}}
   catch nobody(Left) then {Show left(Left)}
   [] error(kernel(Kind)) then {Show broken(Kind)}
   end
end
proc {Tell X Y}
   try X=Y {Show told(X)}
   catch failure(_) then {Show no(X Y)}
   end
end
Seat
in
{Report 12 3}
{Report 12 0}
{Report twelve 3}
{Tell Seat 7}
{Tell Seat 8}
try {Report 1 {Share 2 0}}
catch E then {Show outside(E)}
end
