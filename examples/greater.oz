% The greater of two numbers.
proc {Script Result}
   fun {Greater X Y}
      if X>Y then X else Y end
   end
in
   Result={Greater 1+2 4}
end
{Show ready}
