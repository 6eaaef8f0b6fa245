% A computer to order, as cheap as the rules allow. Of each part there are kinds, and a kind is taken, 1, or not, 0. `Cost` is the price.
%
%   board      small 70, with 2 places for memory    large 110, with 4 places
%   processor  slow 80                               fast 160
%   power      weak 40                               strong 65
%   memory     30 for each place that is filled
%   card       190 for a graphics card
%   set        25 less for a large board together with a fast processor
proc {Script Computer}
   Small Large
   Slow Fast
   Weak Strong
   Memory Card Set
   Cost
in
   Computer=computer(small:Small large:Large slow:Slow fast:Fast weak:Weak strong:Strong
                     memory:Memory card:Card set:Set cost:Cost)
   Small::0#1
   Large::0#1
   Slow::0#1
   Fast::0#1
   Weak::0#1
   Strong::0#1
   Memory::1#4
   Card::0#1
   Set::0#1
   Cost::0#2000
   % One board, one processor, one power supply.
   Small+Large=:1
   Slow+Fast=:1
   Weak+Strong=:1
   % What needs what.
   Memory=<:2*Small+4*Large
   Fast=<:Large
   Card=<:Strong
   Set=<:Large
   Set=<:Fast
   % This customer wants three places of memory, and a fast processor or a graphics card.
   Memory>=:3
   Fast+Card>=:1
   % What it costs.
   Cost=:70*Small+110*Large+80*Slow+160*Fast+40*Weak+65*Strong+30*Memory+190*Card-25*Set
   {FD.distribute ff Computer}
end
