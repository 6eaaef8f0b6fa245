% An order is a record with keys. A pattern names the keys that it asks for, in any order.
proc {Describe Order}
   case Order
   of coffee(milk:true size:Size) then {Show white(Size)}
   [] coffee(milk:false size:Size) then {Show black(Size)}
   [] tea(_ sugar:Sugar) then {Show tea(sugar:Sugar)}
   else {Show unknown(Order)}
   end
end
in
{Describe coffee(size:large milk:true)}
{Describe coffee(milk:false size:small)}
{Describe tea(green sugar:2)}
{Describe water}
