% An agent is a thread that goes through what is sent to its port, and keeps a state.
% This one gives out seats: whoever asks for one sends a variable for the answer, and waits for that alone.
fun {NewAgent Start Step}
   Messages
   proc {Go State Messages}
      case Messages
      of Message|Rest then {Go {Step State Message} Rest}
      end
   end
in
   thread {Go Start Messages} end
   {NewPort Messages}
end

% The state is the list of the free seats. A message is answered, and gives the next state.
fun {Answer Free Message}
   case Message
   of seat(Seat) then
      case Free
      of nil then Seat=none nil
      [] First|Rest then Seat=First Rest
      end
   [] back(Seat) then Seat|Free
   end
end
Desk={NewAgent [a1 a2] Answer}
proc {Guest Name}
   Seat
in
   {Send Desk seat(Seat)}
   {Show asks(Name)}
   if Seat==none then {Show goes(Name)}
   else
      {Show sits(Name Seat)}
      {Send Desk back(Seat)}
   end
end
in
thread {Guest ada} end
thread {Guest ben} end
thread {Guest cleo} end
{Guest dora}
{Guest ed}
