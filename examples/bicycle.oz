% A bicycle to order. Each part comes in some kinds, which have numbers; rules say which go together, and what it may cost.
%
%   frame   1 city, 300    2 tour, 500    3 race, 900
%   wheels  1 wide, 100    2 slim, 200
%   gears   1, 3 or 9: 20 each
%   lamp    0 none         1 a lamp, 40
proc {Script Bicycle}
   Frame Wheels Gears Lamp Price
   FramePrice
in
   Bicycle=bicycle(frame:Frame wheels:Wheels gears:Gears lamp:Lamp price:Price)
   Frame::1#3
   Wheels::1#2
   Gears::1#9
   Lamp::0#1
   % Gears come as 1, 3 or 9.
   Gears\=:2
   Gears\=:4
   Gears\=:5
   Gears\=:6
   Gears\=:7
   Gears\=:8
   % What each frame costs.
   thread FramePrice=prices(300 500 900).Frame end
   FramePrice::300#900
   Price=:FramePrice+100*Wheels+20*Gears+40*Lamp
   % A race bicycle has slim wheels, and no lamp.
   thread
      if Frame==3 then
         Wheels=2
         Lamp=0
      end
   end
   % Nine gears need slim wheels.
   thread if Gears==9 then Wheels=2 end end
   % This customer pays at most 700, and rides at night.
   Price=<:700
   Lamp=1
   {FD.distribute naive bicycle(Frame Wheels Gears Lamp)}
end
