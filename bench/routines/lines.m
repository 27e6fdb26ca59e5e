lines ; Does the lines of a script from standard input as M commands, writes the replies, and at the end the listing where it is asked for
 new job,line,name,old,text,word,x
 use $principal:(width=1048576:nowrap)
loop read line
 if $zeof goto end
 set job=$piece(line," "),text=$piece(line," ",2,99999),word=$piece(text," ")
 if $extract(text)="$" do look goto loop
 if word="TSTART" tstart ():serial  write job," level ",$tlevel,! goto loop
 if word="TCOMMIT" tcommit  write job,$select($tlevel:" level "_$tlevel,1:" committed"),! goto loop
 if word="TROLLBACK" trollback  write job," ok",! goto loop
 if word="LOCK" do lock goto loop
 if word="KVALUE" xecute "zkill "_$piece(text," ",2,99999) write job," ok",! goto loop
 if word="KSUBSCRIPTS" do below goto loop
 xecute text
 write job," ok",!
 goto loop
look ; A function: $QUERY answers a reference, the others a value
 if $extract(text,1,16)="$ORDER(^$GLOBAL(" do names quit
 xecute "set x="_text
 write job," ",$select($extract(text,1,6)="$QUERY"&$length(x):x,1:$zwrite(x)),!
 quit
names ; GT.M has $ORDER of a name in place of ^$GLOBAL
 set name=$piece(text,"""",2),old=$find(text,",-1")
 if name="" set name=$select(old:"^zzzzzzzzzzzzzzzzzzzzzzzzzzzzzzz",1:"^%")
 set x=$order(@name,$select(old:-1,1:1))
 write job," ",$select($length(x):x,1:""""""),!
 quit
below ; GT.M has no KSUBSCRIPTS: the value is put back
 set name=$piece(text," ",2,99999),old=$data(@name)#10
 set:old x=@name
 kill @name
 set:old @name=x
 write job," ok",!
 quit
lock ; Nobody waits
 set name=$piece(text," ",2,99999)
 if name="" lock  write job," ok",! quit
 if $extract(name)="-" xecute text write job," 1",! quit
 xecute text_":0" write job," ",$test,!
 quit
end if $zcmdline'="list" quit
 write "--",!
 set name="^%"
 if $data(@name) zwrite @name
 for  set name=$order(@name) quit:name=""  zwrite @name
 quit
