% Three lessons between 9 and 11. Maths and physics have one teacher, and music comes right behind maths.
proc {OneOf Xs X}
   case Xs
   of nil then fail
   [] Y|Yr then choice X=Y [] {OneOf Yr X} end
   end
end
in
proc {Script Plan}
   Maths Physics Music
in
   Plan=plan(maths:Maths physics:Physics music:Music)
   thread if Maths==Physics then fail end end
   thread if Maths+1\=Music then fail end end
   {OneOf [9 10 11] Maths}
   {OneOf [9 10 11] Physics}
   {OneOf [9 10 11] Music}
end
