bmx 1
nodes 1
bunch main
0 new r0 main 1
# no token is held: it can't be written
0 set r0 0 1
0 write r0
# it is held already
0 write r0
# null is no number
0 add r0 0 1
# there is one field, number 0
0 set r0 1 1
0 done r0
# it isn't held any more
0 done r0
# the register refers to nothing
0 read r1
# what was refused changed nothing
0 read r0
0 show r0 0
0 done r0
