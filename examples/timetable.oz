% A timetable: each lesson gets an hour. A teacher or a group has one lesson at a time, and a teacher may be away.
Lessons=[lesson(maths teacher:ada group:red)
         lesson(physics teacher:ada group:blue)
         lesson(art teacher:ben group:red)
         lesson(music teacher:ben group:blue)
         lesson(sports teacher:cleo group:red)]
Hours=[1 2 3]
Away=[ada#1 cleo#2]

% X is one of Xs.
proc {OneOf Xs X}
   case Xs
   of nil then fail
   [] Y|Yr then choice X=Y [] {OneOf Yr X} end
   end
end
fun {IsAmong X Ys}
   case Ys
   of nil then false
   [] Y|Yr then X==Y orelse {IsAmong X Yr}
   end
end
fun {Map Xs F}
   case Xs
   of nil then nil
   [] X|Xr then {F X}|{Map Xr F}
   end
end

% The rules, posted before any hour is chosen. Each waits in a thread until it can tell, and fails where it is broken.
proc {Apart Lesson Hour Others}
   case Others
   of nil then skip
   [] (Other#At)|Rest then
      if Lesson.teacher==Other.teacher orelse Lesson.group==Other.group then
         thread if Hour==At then fail end end
      end
      {Apart Lesson Hour Rest}
   end
end
proc {Rules Table}
   case Table
   of nil then skip
   [] (Lesson#Hour)|Rest then
      thread if {IsAmong Lesson.teacher#Hour Away} then fail end end
      {Apart Lesson Hour Rest}
      {Rules Rest}
   end
end

% An hour for each lesson, from the first lesson to the last.
proc {Fill Table}
   case Table
   of nil then skip
   [] (_#Hour)|Rest then
      {OneOf Hours Hour}
      {Fill Rest}
   end
end
in
proc {Script Plan}
   Table={Map Lessons fun {$ Lesson} Lesson#_ end}
in
   {Rules Table}
   {Fill Table}
   Plan={Map Table fun {$ Placed} case Placed of Lesson#Hour then Lesson.1#Hour end end}
end
