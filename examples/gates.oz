% The truth table of a half adder, from tests alone.
proc {And X Y Z} if X then Z=Y else Z=false end end
proc {Not X Z} if X then Z=false else Z=true end end
proc {Xor X Y Z} NotY in {Not Y NotY} if X then Z=NotY else Z=Y end end
proc {Row X Y}
   Sum Carry
in
   {Xor X Y Sum}
   {And X Y Carry}
   {Show add(X Y carry:Carry sum:Sum)}
end
in
{Row false false}
{Row false true}
{Row true false}
{Row true true}
