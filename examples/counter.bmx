bmx 1
nodes 4
bunch main
# field 0 of the anchor is a counter
0 write @main
0 set @main 0 0
0 done @main
phase
# each node raises it twice; who comes next is drawn, but while one node holds a write token no other holds any,
# so no raise is lost
0 write @main
0 add @main 0 1
0 done @main
0 write @main
0 add @main 0 1
0 done @main
1 write @main
1 add @main 0 10
1 done @main
1 write @main
1 add @main 0 10
1 done @main
2 write @main
2 add @main 0 100
2 done @main
2 write @main
2 add @main 0 100
2 done @main
3 write @main
3 add @main 0 1000
3 done @main
3 write @main
3 add @main 0 1000
3 done @main
phase
# whoever reads it now finds the sum, since a reader's copy is the owner's
0 read @main
0 show @main 0
0 done @main
phase
3 read @main
3 show @main 0
3 done @main
