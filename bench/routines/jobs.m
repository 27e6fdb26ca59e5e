jobs ; The jobs of bench/threads as loops of M, for several processes at the same time: nothing is read, parsed or written
 new kind,first,last,count,job
 set kind=$piece($zcmdline," "),first=$piece($zcmdline," ",2),last=$piece($zcmdline," ",3),count=$piece($zcmdline," ",4)
 for job=first:1:last do begin,@kind
 quit
begin new n
 for n=0:1:999 set ^D(job,n)=n
 quit
reads new i,x
 for i=1:1:10 set x=$get(^D(job,$random(1000)))
 quit
rolled new turn
 for turn=1:1:count tstart ():serial do reads trollback
 quit
committed new turn
 for turn=1:1:count tstart ():serial do reads tcommit
 quit
written new turn
 for turn=1:1:count tstart ():serial do reads set ^D(job,$random(1000))=$random(1000) tcommit
 quit
tenth new turn
 for turn=0:1:count-1 do one(turn#10=0)
 quit
one(writes) tstart ():serial
 do reads
 if writes set ^D(job,$random(1000))=$random(1000) tcommit
 else  trollback
 quit
lone new turn
 for turn=1:1:count*10 set ^D(job,$random(1000))=$random(1000)
 quit
looks new turn
 for turn=1:1:count do reads
 quit
