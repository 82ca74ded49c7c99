cells 3
32 0
32 1
32 1
first 2 0 1
depth 1
labels 2
points 2
0
2
1 goto 1 in 32 sets 3
K 1
0 K 0
1 B Add B Mul C 1 0 C 0 0 C 2 0
2 B Add B Mul C 2 0 C 0 0 B Mul C 1 0 C 2 0
2 fail  in 0 sets 0
B Eq C 1 0 C 2 0
