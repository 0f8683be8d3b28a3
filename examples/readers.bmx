bmx 1
nodes 3
bunch main
0 write @main
0 set @main 0 1
0 done @main
phase
# nodes 1 and 2 hold read tokens, side by side: each shows a copy of its own
1 read @main
1 show @main 0
phase
2 read @main
2 show @main 0
phase
# node 0 asks to write, and both readers are told to give up their copies; each does so once it is done, so what
# node 1 shows here is 1 still, whichever line comes first
0 write @main
0 set @main 0 2
0 done @main
1 show @main 0
1 done @main
2 done @main
phase
# both copies are gone: to read again is to ask the owner, who sends what is written now
1 read @main
1 show @main 0
1 done @main
