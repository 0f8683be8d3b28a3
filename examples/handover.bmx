bmx 1
nodes 2
bunch main
0 new r0 main 1
0 write r0
0 set r0 0 42
0 done r0
0 write @main
0 set @main 0 r0
0 done @main
phase
1 read @main
1 get r0 @main 0
1 write r0
1 add r0 0 1
1 show r0 0
