% Three regions that touch one another, each of another colour.
proc {Script Map}
   proc {Differ X Y}
      choice X=red Y=green
      [] X=red Y=blue
      [] X=green Y=red
      [] X=green Y=blue
      [] X=blue Y=red
      [] X=blue Y=green
      end
   end
   North South Coast
in
   Map=map(North South Coast)
   {Differ North South}
   {Differ South Coast}
   {Differ Coast North}
end
