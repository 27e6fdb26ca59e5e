speed ; The workloads of bench/workloads.py as loops of M: nothing is read, parsed or written
 new count,kind
 set kind=$piece($zcmdline," "),count=$piece($zcmdline," ",2)
 do @kind
 quit
gets new i,x
 for i=1:1:100000 set x=$get(^A($random(count)+1))
 quit
rising new i
 for i=1:1:count set ^A(i)=i
 do gets
 quit
shuffled new i,n
 for i=1:1:count set n=i*611953#1000003,^A(n)=n
 do gets
 quit
falling new i
 for i=count:-1:1 set ^A(i)=i
 quit
interleaved new i
 for i=1:1:count\2 set ^A(i)=i,^B(i)=i
 quit
records new i,name
 for i=1:1:count\3 set name="Lindqvist, "_$random(1200000),^P(i,"name")=name,^P(i,"born")=1930+$random(91),^N(name,i)=""
 quit
fewkeys new i
 for i=1:1:count set ^A(i#1000)=i
 quit
order new i
 for i=1:1:count set ^A(i)=i
 set i="" for  set i=$order(^A(i)) quit:i=""
 quit
query new i,place
 for i=1:1:count set ^A(i\10,i#10)=i
 set place="^A" for  set place=$query(@place) quit:place=""
 quit
merge(names) new i
 for i=1:1:count set ^M(i)=i
 for i=1:1:5 merge @$piece(names," ",i)=^M
 quit
later do merge("^N ^O ^P ^Q ^R")
 quit
earlier do merge("^L ^K ^J ^I ^H")
 quit
kills new i
 for i=1:1:count set ^M(i)=i
 for i=1:1:5 merge ^A=^M kill ^A
 quit
front new i
 for i=1:1:count set ^A(i)=i
 for i=1:1:count kill ^A(i)
 quit
queue new i,n
 for i=1:1:count set ^A(i)=i
 for  set n=$order(^A("")) quit:n=""  kill ^A(n)
 quit
single new i,a,b,x
 for i=1:1:count set a=$random(32),b=(a+1+$random(31))#32 tstart ():serial  set x=$get(^Account(a)),x=$get(^Account(b)),^Account(a)=i,^Account(b)=i tcommit
 quit
