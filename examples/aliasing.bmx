bmx 1
nodes 1
bunch main
# two ways to one object: a register and a field of the anchor
0 new r0 main 1
0 write @main
0 set @main 0 r0
0 get r1 @main 0
0 done @main
0 same r0 r1
# what is written by one is read by the other
0 write r0
0 set r0 0 7
0 add r1 0 -2
0 done r1
0 read r0
0 show r0 0
0 done r0
# another object with the same fields is another object
0 new r2 main 1
0 same r0 r2
# a copy of a register is the same reference, and a register that was dropped refers to nothing
0 copy r3 r0
0 same r0 r3
0 drop r3
0 same r3 null
