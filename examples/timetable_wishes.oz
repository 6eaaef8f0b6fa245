% A timetable with wishes. Rules have to be met; a wish that is not met counts as a penalty, and `Cost` is the sum of the penalties.
proc {Script Table}
   % The hour of each lesson, from 1 to 4.
   Maths Physics Art Music Sports
   % By how many hours a wish is missed.
   MathsLate SportsEarly ArtLate MusicLate Gap
   Cost
in
   Table=table(maths:Maths physics:Physics art:Art music:Music sports:Sports
               maths_late:MathsLate sports_early:SportsEarly art_late:ArtLate music_late:MusicLate gap:Gap cost:Cost)
   Maths::1#4
   Physics::1#4
   Art::1#4
   Music::1#4
   Sports::1#4
   MathsLate::0#3
   SportsEarly::0#3
   ArtLate::0#3
   MusicLate::0#3
   Gap::0#3
   Cost::0#100
   % Ada teaches maths and physics, and is away in the second hour. Ben teaches art and music.
   Maths\=:Physics
   Maths\=:2
   Physics\=:2
   Art\=:Music
   % The red group has maths, art and sports, and the blue one physics and music.
   {FD.distinct [Maths Art Sports]}
   Physics\=:Music
   % The hall is free for music from the second hour on.
   Music>:1
   % Maths should come in the first two hours: each hour later counts 3.
   Maths=<:2+MathsLate
   % Sports should come last: each hour earlier counts 2.
   Sports+SportsEarly>=:4
   % Ada should have no free hour between her lessons: each counts 4.
   Physics=<:Maths+1+Gap
   Maths=<:Physics+1+Gap
   % Ben should be free after the second hour: each hour later counts 1.
   Art=<:2+ArtLate
   Music=<:2+MusicLate
   Cost=:3*MathsLate+2*SportsEarly+4*Gap+ArtLate+MusicLate
   {FD.distribute ff Table}
end
