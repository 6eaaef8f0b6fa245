proc {Script Slot}
   choice Slot=monday_morning
   [] fail
   [] Slot=wednesday_morning
   [] fail
   [] Slot=friday_afternoon
   end
end
