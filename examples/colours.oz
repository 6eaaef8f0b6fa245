proc {Script Colour}
   choice Colour=red
   [] Colour=green
   [] Colour=blue
   end
end
