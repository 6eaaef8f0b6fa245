% How many hours each teacher has.
Lessons=[lesson(ada 4) lesson(ben 2) lesson(ada 3)]
fun {HoursOf Teacher Lessons}
   case Lessons
   of nil then 0
   [] lesson(Name Hours)|Rest then
      if Name==Teacher then Hours+{HoursOf Teacher Rest} else {HoursOf Teacher Rest} end
   end
end
in
{Show ada#{HoursOf ada Lessons}}
{Show ben#{HoursOf ben Lessons}}
