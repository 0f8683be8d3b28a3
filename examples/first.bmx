bmx 1
nodes 1
bunch main
0 new r0 main 1
0 write r0
0 set r0 0 5
0 show r0 0
0 done r0
