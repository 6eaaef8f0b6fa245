% A bank account is a procedure over a cell that nothing else names, so the money changes by it alone.
% What threads pay in side by side is all there, since `Exchange` reads and writes in one step.
fun {NewAccount Start}
   Money={NewCell Start}
   proc {Add Sum}
      Old New
   in
      {Exchange Money Old New}
      New=Old+Sum
   end
in
   proc {$ Message}
      case Message
      of deposit(Sum) then {Add Sum}
      [] withdraw(Sum) then
         if Sum>@Money then raise short(Sum-@Money) end end
         {Add 0-Sum}
      [] balance(Sum) then Sum=@Money
      end
   end
end
proc {Transfer From To Sum}
   try
      {From withdraw(Sum)}
      {To deposit(Sum)}
      {Show moved(Sum)}
   catch short(Missing) then {Show short(Missing)}
   end
end
proc {ShowBalances}
   A B
in
   {Ada balance(A)}
   {Ben balance(B)}
   {Show ada(A)#ben(B)}
end
Ada Ben
in
Ada={NewAccount 100}
Ben={NewAccount 20}
{Transfer Ada Ben 70}
{Transfer Ada Ben 70}
{ShowBalances}
thread {Ada deposit(40)} end
thread {Ada deposit(2)} end
{Ada deposit(800)}
{Transfer Ben Ada 30}
{ShowBalances}
