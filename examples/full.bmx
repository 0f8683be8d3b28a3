bmx 1
nodes 1
bunch main
# one segment of 1,024 words: the anchor and each object of 32 fields take 36
segments 1
0 new r0 main 32
0 new r0 main 32
0 new r0 main 32
0 new r0 main 32
0 new r0 main 32
0 new r0 main 32
0 new r0 main 32
0 new r0 main 32
0 new r0 main 32
0 new r0 main 32
0 new r0 main 32
0 new r0 main 32
0 new r0 main 32
0 new r0 main 32
0 new r0 main 32
0 new r0 main 32
0 new r0 main 32
0 new r0 main 32
0 new r0 main 32
0 new r0 main 32
0 new r0 main 32
0 new r0 main 32
0 new r0 main 32
0 new r0 main 32
0 new r0 main 32
0 new r0 main 32
0 new r0 main 32
0 new r0 main 32
# 16 words are left, which is enough for 12 fields
0 new r1 main 12
0 new r1 main 0
0 same r0 r1
