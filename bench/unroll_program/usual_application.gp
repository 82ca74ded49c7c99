cells 31
16 0
16 0
16 0
16 0
8 0
8 0
16 0
8 0
32 0
32 0
16 0
16 0
32 0
1 1
8 0
8 0
1 1
1 0
1 0
1 0
1 0
1 0
1 0
1 0
1 0
1 0
1 0
1 0
8 0
8 0
8 0
first 2 0 1
depth 4
labels 19
points 39
1
1 push 0 26 in 0 sets 2
B LtU C 30 0 K 2
30 B And B Add C 30 0 K 1 K 15
19 K 1
2
2 goto 2 in 0 sets 1
K 1
4 K 0
1 push 1 26 in 0 sets 2
B LtU C 30 0 K 2
30 B And B Add C 30 0 K 1 K 15
19 K 1
2
2 goto 3 in 0 sets 1
K 1
5 K 0
1 push 2 26 in 0 sets 2
B LtU C 30 0 K 2
30 B And B Add C 30 0 K 1 K 15
19 K 1
3
3 fail  in 0 sets 0
B Eq C 14 0 K 3
2 goto 4 in 0 sets 4
U Not B Eq C 14 0 K 3
14 B And B Add C 14 0 K 1 K 3
23 H C 23 0 C 23 0 K 1
24 H C 24 0 C 24 0 H C 23 0 K 1 K 0
25 H C 25 0 C 25 0 H C 24 0 K 1 K 0
1 push 3 26 in 0 sets 2
B LtU C 30 0 K 2
30 B And B Add C 30 0 K 1 K 15
19 K 1
5
2 poppush 1 in 0 sets 2
B Eq C 26 0 K 1
13 K 0
26 K 0
4 poppush 6 in 0 sets 6
B And B Eq C 23 0 K 1 B And U Not C 26 0 U Not C 17 0
16 K 0
13 K 0
17 K 1
23 C 24 0
24 C 25 0
25 K 0
5 poppush 20 in 0 sets 6
B And B Eq C 20 0 K 1 B And U Not C 23 0 B And U Not C 26 0 B And U Not C 17 0 U Not C 18 0
16 K 0
13 K 0
18 K 1
20 C 21 0
21 C 22 0
22 K 0
6 pop  in 0 sets 2
U Not B Or B Eq C 26 0 K 1 B Or B And B Eq C 23 0 K 1 B And U Not C 26 0 U Not C 17 0 B And B Eq C 20 0 K 1 B And U Not C 23 0 B And U Not C 26 0 B And U Not C 17 0 U Not C 18 0
16 K 0
13 K 0
1 push 4 26 in 0 sets 2
B LtU C 30 0 K 2
30 B And B Add C 30 0 K 1 K 15
19 K 1
2
3 fail  in 0 sets 0
K 1
1 push 5 26 in 0 sets 2
B LtU C 30 0 K 2
30 B And B Add C 30 0 K 1 K 15
19 K 1
2
7 goto 7 in 0 sets 1
K 1
7 K 0
1 push 6 26 in 0 sets 2
B And B LtU C 30 0 K 2 U Not C 27 0
30 B And B Add C 30 0 K 1 K 15
19 K 1
3
8 fail  in 0 sets 0
C 27 0
7 goto 8 in 0 sets 2
U Not C 27 0
27 K 1
28 K 1
1 push 7 26 in 0 sets 2
B And B LtU C 30 0 K 2 U Not C 27 0
30 B And B Add C 30 0 K 1 K 15
19 K 1
2
7 goto 9 in 0 sets 1
K 1
8 C 4 0
1 push 8 26 in 0 sets 2
B And B LtU C 30 0 K 2 U Not C 27 0
30 B And B Add C 30 0 K 1 K 15
19 K 1
2
7 goto 10 in 0 sets 1
K 1
7 C 8 0
1 push 9 26 in 0 sets 2
B And B LtU C 30 0 K 2 U Not C 27 0
30 B And B Add C 30 0 K 1 K 15
19 K 1
3
7 goto 11 in 0 sets 0
U Bool B LtS K 0 C 7 0
9 goto 14 in 0 sets 0
U Not B LtS K 0 C 7 0
1 push 10 26 in 0 sets 2
B And B LtU C 30 0 K 2 U Not C 27 0
30 B And B Add C 30 0 K 1 K 15
19 K 1
3
8 fail  in 0 sets 0
B Or B SubOver C 7 0 K 1 U Not B LtU B Sub C 7 0 K 1 K 4
7 goto 12 in 0 sets 1
U Not B Or B SubOver C 7 0 K 1 U Not B LtU B Sub C 7 0 K 1 K 4
8 P 0 4 0 B Sub C 7 0 K 1
1 push 11 26 in 0 sets 2
B And B LtU C 30 0 K 2 U Not C 27 0
30 B And B Add C 30 0 K 1 K 15
19 K 1
2
7 goto 13 in 0 sets 1
K 1
6 C 8 0
1 push 12 26 in 0 sets 2
B And B LtU C 30 0 K 2 U Not C 27 0
30 B And B Add C 30 0 K 1 K 15
19 K 1
3
8 fail  in 0 sets 0
B SubOver C 7 0 K 1
7 goto 14 in 0 sets 1
U Not B SubOver C 7 0 K 1
4 B Sub C 7 0 K 1
1 push 13 26 in 0 sets 2
B And B LtU C 30 0 K 2 U Not C 27 0
30 B And B Add C 30 0 K 1 K 15
19 K 1
2
7 goto 15 in 0 sets 1
K 1
8 C 4 0
1 push 14 26 in 0 sets 2
B And B LtU C 30 0 K 2 U Not C 27 0
30 B And B Add C 30 0 K 1 K 15
19 K 1
3
8 fail  in 0 sets 0
U Not B LtS C 8 0 K 4
7 goto 16 in 0 sets 0
U Not U Not B LtS C 8 0 K 4
1 push 15 26 in 0 sets 2
B And B LtU C 30 0 K 2 U Not C 27 0
30 B And B Add C 30 0 K 1 K 15
19 K 1
4
8 fail  in 0 sets 0
U Not B Eq C 28 0 K 1
7 push 17 1 in 0 sets 4
B And U Not U Not B Eq C 28 0 K 1 B Eq C 26 0 K 1
27 K 0
28 K 0
16 K 1
26 K 0
9 goto 17 in 0 sets 2
B And U Not U Not B Eq C 28 0 K 1 U Not B Eq C 26 0 K 1
27 K 0
28 K 0
1 push 16 26 in 0 sets 2
B And B LtU C 30 0 K 2 U Not C 27 0
30 B And B Add C 30 0 K 1 K 15
19 K 1
3
8 fail  in 0 sets 0
B Eq C 15 0 K 3
7 goto 18 in 0 sets 4
U Not B Eq C 15 0 K 3
15 B And B Add C 15 0 K 1 K 3
20 H C 20 0 C 20 0 K 1
21 H C 21 0 C 21 0 H C 20 0 K 1 K 0
22 H C 22 0 C 22 0 H C 21 0 K 1 K 0
1 push 17 26 in 0 sets 2
B And B LtU C 30 0 K 2 U Not C 27 0
30 B And B Add C 30 0 K 1 K 15
19 K 1
5
8 fail  in 0 sets 0
C 28 0
7 poppush 6 in 0 sets 4
B And U Not C 28 0 B Eq C 23 0 K 1
14 B And B Sub C 14 0 K 1 K 3
23 C 24 0
24 C 25 0
25 K 0
9 poppush 20 in 0 sets 6
B And U Not C 28 0 B And B Eq C 20 0 K 1 B And U Not C 23 0 U Not C 18 0
17 K 0
14 B And B Sub C 14 0 K 1 K 3
18 K 1
20 C 21 0
21 C 22 0
22 K 0
10 pop  in 0 sets 2
B And U Not C 28 0 U Not B Or B Eq C 23 0 K 1 B And B Eq C 20 0 K 1 B And U Not C 23 0 U Not C 18 0
17 K 0
14 B And B Sub C 14 0 K 1 K 3
1 push 18 26 in 0 sets 2
B And B LtU C 30 0 K 2 U Not C 27 0
30 B And B Add C 30 0 K 1 K 15
19 K 1
2
8 fail  in 0 sets 0
K 1
1 push 19 26 in 0 sets 2
B And B LtU C 30 0 K 2 U Not C 27 0
30 B And B Add C 30 0 K 1 K 15
19 K 1
2
11 goto 21 in 0 sets 1
K 1
9 C 5 0
1 push 20 26 in 0 sets 2
B LtU C 30 0 K 2
30 B And B Add C 30 0 K 1 K 15
19 K 1
3
12 fail  in 0 sets 0
B AddOver C 9 0 K 1
11 goto 22 in 0 sets 1
U Not B AddOver C 9 0 K 1
5 B Add C 9 0 K 1
1 push 21 26 in 0 sets 2
B LtU C 30 0 K 2
30 B And B Add C 30 0 K 1 K 15
19 K 1
2
11 goto 23 in 0 sets 1
K 1
9 C 5 0
1 push 22 26 in 0 sets 2
B LtU C 30 0 K 2
30 B And B Add C 30 0 K 1 K 15
19 K 1
3
12 fail  in 0 sets 0
U Not B LeS C 9 0 K 3
11 goto 24 in 0 sets 0
U Not U Not B LeS C 9 0 K 3
1 push 23 26 in 0 sets 2
B LtU C 30 0 K 2
30 B And B Add C 30 0 K 1 K 15
19 K 1
3
11 poppush 20 in 0 sets 4
B Eq C 20 0 K 1
15 B And B Sub C 15 0 K 1 K 3
20 C 21 0
21 C 22 0
22 K 0
13 pop  in 0 sets 2
U Not B Eq C 20 0 K 1
18 K 0
15 B And B Sub C 15 0 K 1 K 3
1 push 24 26 in 0 sets 2
B LtU C 30 0 K 2
30 B And B Add C 30 0 K 1 K 15
19 K 1
2
12 fail  in 0 sets 0
K 1
1 push 25 26 in 0 sets 2
B LtU C 30 0 K 2
30 B And B Add C 30 0 K 1 K 15
19 K 1
1
14 goto 27 in 16 sets 1
K 1
10 K 0
2
15 fail  in 0 sets 0
C 27 0
16 goto 28 in 0 sets 2
U Not C 27 0
27 K 1
29 K 1
1
16 goto 29 in 0 sets 1
K 1
11 C 10 0
1
16 goto 30 in 0 sets 1
K 1
12 C 4 0
2
16 goto 31 in 0 sets 0
U Bool B LtS C 12 0 K 4
17 goto 35 in 0 sets 0
U Not B LtS C 12 0 K 4
1
16 goto 32 in 0 sets 1
K 1
12 C 4 0
2
15 fail  in 0 sets 0
U Not B LtU C 12 0 K 4
16 goto 33 in 0 sets 4
U Not U Not B LtU C 12 0 K 4
0 H B Eq C 12 0 K 0 C 11 0 C 0 0
1 H B Eq C 12 0 K 1 C 11 0 C 1 0
2 H B Eq C 12 0 K 2 C 11 0 C 2 0
3 H B Eq C 12 0 K 3 C 11 0 C 3 0
1
16 goto 34 in 0 sets 1
K 1
12 C 4 0
2
15 fail  in 0 sets 0
B AddOver C 12 0 K 1
16 goto 35 in 0 sets 1
U Not B AddOver C 12 0 K 1
4 B Add C 12 0 K 1
1
16 goto 36 in 0 sets 0
K 1
2
15 fail  in 0 sets 0
U Not B Eq C 29 0 K 1
16 goto 37 in 0 sets 2
U Not U Not B Eq C 29 0 K 1
27 K 0
29 K 0
2
15 fail  in 0 sets 0
B Eq C 14 0 K 3
16 goto 38 in 0 sets 4
U Not B Eq C 14 0 K 3
14 B And B Add C 14 0 K 1 K 3
23 H C 23 0 C 23 0 K 1
24 H C 24 0 C 24 0 H C 23 0 K 1 K 0
25 H C 25 0 C 25 0 H C 24 0 K 1 K 0
5
15 fail  in 0 sets 0
C 29 0
16 poppush 1 in 0 sets 3
B And U Not C 29 0 B And B Eq C 26 0 K 1 B And U Not C 16 0 U Not C 27 0
19 K 0
16 K 1
26 K 0
17 poppush 6 in 0 sets 5
B And U Not C 29 0 B And B Eq C 23 0 K 1 B And U Not C 26 0 B And U Not C 16 0 B And U Not C 17 0 U Not C 27 0
19 K 0
17 K 1
23 C 24 0
24 C 25 0
25 K 0
18 poppush 20 in 0 sets 5
B And U Not C 29 0 B And B Eq C 20 0 K 1 B And U Not C 23 0 B And U Not C 26 0 B And U Not C 16 0 B And U Not C 17 0 B And U Not C 18 0 U Not C 27 0
19 K 0
18 K 1
20 C 21 0
21 C 22 0
22 K 0
19 pop  in 0 sets 1
B And U Not C 29 0 U Not B Or B And B Eq C 26 0 K 1 B And U Not C 16 0 U Not C 27 0 B Or B And B Eq C 23 0 K 1 B And U Not C 26 0 B And U Not C 16 0 B And U Not C 17 0 U Not C 27 0 B And B Eq C 20 0 K 1 B And U Not C 23 0 B And U Not C 26 0 B And U Not C 16 0 B And U Not C 17 0 B And U Not C 18 0 U Not C 27 0
19 K 0
