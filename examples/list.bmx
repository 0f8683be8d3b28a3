bmx 1
nodes 1
bunch main
# a list of three numbers, from its end: each object has a number and the next object
0 new r0 main 2
0 write r0
0 set r0 0 3
0 done r0
0 new r1 main 2
0 write r1
0 set r1 0 2
0 set r1 1 r0
0 done r1
0 new r0 main 2
0 write r0
0 set r0 0 1
0 set r0 1 r1
0 done r0
# the anchor of the bunch refers to the first object; no register needs to
0 write @main
0 set @main 0 r0
0 done @main
0 drop r0
0 drop r1
# along the list: 1, 2, 3 and then null
0 read @main
0 get r2 @main 0
0 done @main
0 read r2
0 show r2 0
0 get r3 r2 1
0 done r2
0 read r3
0 show r3 0
0 get r2 r3 1
0 done r3
0 read r2
0 show r2 0
0 show r2 1
0 done r2
