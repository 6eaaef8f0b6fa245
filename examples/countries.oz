% The colours of a map, by numbers: neighbours have different ones.
proc {Script Map}
   Austria Germany Italy Slovenia Switzerland France
in
   Map=map(austria:Austria germany:Germany italy:Italy slovenia:Slovenia switzerland:Switzerland france:France)
   Map:::1#4
   Austria\=:Germany
   Austria\=:Italy
   Austria\=:Slovenia
   Austria\=:Switzerland
   Germany\=:Switzerland
   Germany\=:France
   Italy\=:Slovenia
   Italy\=:Switzerland
   Italy\=:France
   Switzerland\=:France
   % The first four colours are given, so that no map comes twice with its colours exchanged.
   Austria=1
   Germany=2
   Switzerland=3
   {FD.distribute ff Map}
end
