% Branch and bound, written with spaces. Whoever betters the best solution so far goes on: that is injected into each space.

% The best solution X as best(X), or none; and how many spaces it looked at. {Better X Y} fails where Y is no better than X.
fun {Best Script Better}
   Looked={NewCell 0}
   fun {In S Found}
      Looked:=@Looked+1
      case Found
      of none then skip
      [] best(X) then {Inject S proc {$ Y} {Better X Y} end}
      end
      case {Ask S}
      of succeeded then best({Merge S})
      [] alternatives(N) then {Each S 1 N Found}
      [] failed then Found
      [] raised(E) then raise E end
      end
   end
   fun {Each S I N Found}
      if I==N then
         {Commit S N}
         {In S Found}
      else
         C={Clone S}
      in
         {Commit C I}
         {Each S I+1 N {In C Found}}
      end
   end
   Found
in
   Found={In {NewSpace Script} none}
   Found#@Looked
end

% A round trip from town a through all the others, with what it has cost up to each of them, and back.
Far=far(a:to(b:18 c:7 d:4 e:21)
        b:to(a:18 c:17 d:3 e:6)
        c:to(a:7 b:17 d:23 e:5)
        d:to(a:4 b:3 c:23 e:19)
        e:to(a:21 b:6 c:5 d:19))
proc {RoundTrip Trip}
   % X is one of Xs, and Rest are the others.
   proc {OneOf Xs X Rest}
      case Xs
      of [Y] then X=Y Rest=nil
      [] Y|Yr then
         choice X=Y Rest=Yr
         [] Zr in
            Rest=Y|Zr
            {OneOf Yr X Zr}
         end
      end
   end
   proc {Go Here Left Cost Towns Costs}
      case Left
      of nil then
         Towns=nil
         Costs=[Cost+Far.Here.a]
      else
         Next Rest Tr Cr Sum
      in
         {OneOf Left Next Rest}
         Sum=Cost+Far.Here.Next
         Towns=Next|Tr
         Costs=Sum|Cr
         {Go Next Rest Sum Tr Cr}
      end
   end
   Towns Costs
in
   Trip=trip(Towns costs:Costs)
   {Go a [b c d e] 0 Towns Costs}
end
fun {Last Xs}
   case Xs
   of [X] then X
   [] _|Xr then {Last Xr}
   end
end

% No cost on the way may reach the whole cost of the best trip so far. This waits for one cost after another.
proc {Cheaper Old New}
   proc {Below Costs Most}
      case Costs
      of nil then skip
      [] Cost|Cr then
         if Cost>=Most then fail end
         {Below Cr Most}
      end
   end
in
   {Below New.costs {Last Old.costs}}
end

% Any trip is better than none, so this finds the last one, and looks at all.
proc {Any Old New}
   skip
end
in
{Show {Best RoundTrip Cheaper}}
{Show {Best RoundTrip Any}}
