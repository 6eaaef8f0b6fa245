proc {Script Room}
   choice fail
   [] fail
   end
end
