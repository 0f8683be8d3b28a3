bmx 1
nodes 2
bunch main
# node 0 makes a list of two numbers: each object has a number and the next object
0 new r1 main 2
0 write r1
0 set r1 0 8
0 done r1
0 new r0 main 2
0 write r0
0 set r0 0 7
0 set r0 1 r1
0 done r0
# it hangs the list into the anchor, the one object that every node finds by its name
0 write @main
0 set @main 0 r0
0 done @main
phase
# node 1 walks along it: each read brings it a copy of one object
1 read @main
1 get r0 @main 0
1 done @main
1 read r0
1 show r0 0
1 get r1 r0 1
1 done r0
# a write makes it the owner of the second object; behind that it puts one of its own
1 write r1
1 show r1 0
1 new r2 main 2
1 write r2
1 set r2 0 9
1 done r2
1 set r1 1 r2
1 done r1
phase
# node 0 finds three numbers; the third object is called 1.1, the first that node 1 made
0 read r0
0 get r1 r0 1
0 done r0
0 read r1
0 show r1 1
0 get r2 r1 1
0 done r1
0 read r2
0 show r2 0
0 show r2 1
0 done r2
