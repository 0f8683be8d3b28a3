bmx 1
nodes 2
bunch main
0 write @main
0 set @main 0 1
0 done @main
phase
# node 1 begins only now, when node 0 is done: it finds 1, where without the line above it could find null
1 write @main
1 add @main 0 1
1 show @main 0
1 done @main
# a quiet end waits besides until no letter is on its way and no owner can serve
quiet
# within a phase the nodes go on side by side, each in the order of its own lines
0 read @main
1 read @main
phase
# a token is kept over the end of a phase, until it is given back
0 show @main 0
phase
1 show @main 0
0 done @main
1 done @main
