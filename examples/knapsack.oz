% What to pack: so many of each thing that together they weigh at most 9 and are worth at least 13.
proc {Script Packed}
   Tents Stoves Books
   Weight Worth
in
   Packed=packed(tents:Tents stoves:Stoves books:Books weight:Weight worth:Worth)
   Tents::0#1
   Stoves::0#2
   Books::0#4
   4*Tents+3*Stoves+2*Books=:Weight
   7*Tents+5*Stoves+3*Books=:Worth
   Weight=<:9
   Worth>=:13
   {FD.distribute naive Packed}
end
