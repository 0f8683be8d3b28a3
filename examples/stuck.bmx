bmx 1
nodes 2
bunch main
# node 0 makes two objects, and node 1 finds both
0 new r0 main 1
0 new r1 main 1
0 write @main
0 set @main 0 r0
0 set @main 1 r1
0 done @main
phase
1 read @main
1 get r0 @main 0
1 get r1 @main 1
1 done @main
phase
# each takes the write token of one of them
0 write r0
1 write r1
phase
# and then of the other: each waits for what the other gives back only later, so both wait for ever;
# this never happens where all nodes take their tokens in one order
0 show r0 0
0 write r1
0 done r1
0 done r0
1 write r0
1 done r0
1 done r1
