% SEND+MORE=MONEY: a digit for each letter, no digit for two letters, and no number begins with 0.
proc {Script Letters}
   S E N D M O R Y
in
   Letters=digits(s:S e:E n:N d:D m:M o:O r:R y:Y)
   Letters:::0#9
   {FD.distinct Letters}
   S\=:0
   M\=:0
   1000*S+100*E+10*N+D+1000*M+100*O+10*R+E=:10000*M+1000*O+100*N+10*E+Y
   {FD.distribute ff Letters}
end
