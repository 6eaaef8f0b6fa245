% The marks on a tree, from left to right, and the tree that a mirror shows.
fun {Marks Tree}
   fun {Before Tree Rest}
      case Tree
      of leaf then Rest
      [] node(L M R) then {Before L M|{Before R Rest}}
      end
   end
in
   {Before Tree nil}
end
fun {Mirror Tree}
   case Tree
   of leaf then leaf
   [] node(L M R) then node({Mirror R} M {Mirror L})
   end
end
fun {Shape Tree}
   case Tree
   of leaf then none
   [] node(leaf _ leaf) then one
   [] node(_ _ leaf) then left
   [] node(leaf _ _) then right
   else both
   end
end
Oak=node(node(leaf a leaf) b node(node(leaf c leaf) d leaf))
in
{Show {Marks Oak}}
{Show {Marks {Mirror Oak}}}
{Show shape({Shape Oak} inner:case Oak of node(_ _ R) then {Shape R} end)}
