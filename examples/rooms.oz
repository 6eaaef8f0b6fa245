% A timetable with rooms. Each lesson has a teacher and a group, and gets an hour and a room: in one place of the table, hour and room,
% there is one lesson, and a teacher and a group have one lesson an hour.
Lessons=[lesson(maths teacher:ada group:red)
         lesson(physics teacher:ada group:blue)
         lesson(sports teacher:cleo group:red)
         lesson(art teacher:ben group:blue)]
Hours=2
Rooms=2

fun {Map Xs F}
   case Xs
   of nil then nil
   [] X|Xr then {F X}|{Map Xr F}
   end
end

% Lessons with the same teacher or the same group have different hours.
proc {Apart Placed Others}
   case Others
   of nil then skip
   [] Other|Rest then
      if Placed.lesson.teacher==Other.lesson.teacher orelse Placed.lesson.group==Other.lesson.group then
         Placed.hour\=:Other.hour
      end
      {Apart Placed Rest}
   end
end
proc {AllApart Table}
   case Table
   of nil then skip
   [] Placed|Rest then
      {Apart Placed Rest}
      {AllApart Rest}
   end
end
in
proc {Script Plan}
   % A place has a number: first the hours of the first room, then those of the second.
   Table={Map Lessons
          fun {$ Lesson}
             Hour Room Place
          in
             Hour::1#Hours
             Room::1#Rooms
             Hours*Room+Hour=:Place
             placed(lesson:Lesson hour:Hour room:Room place:Place)
          end}
   proc {Sports Table}
      case Table
      of nil then skip
      [] Placed|Rest then
         % Sports is in the second room.
         if Placed.lesson.1==sports then Placed.room=2 end
         {Sports Rest}
      end
   end
in
   {FD.distinct {Map Table fun {$ Placed} Placed.place end}}
   {AllApart Table}
   {Sports Table}
   Plan={Map Table fun {$ Placed} Placed.lesson.1#slot(hour:Placed.hour room:Placed.room) end}
   {FD.distribute ff {Map Table fun {$ Placed} Placed.place end}}
end
