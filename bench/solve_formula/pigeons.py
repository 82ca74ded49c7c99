#!/usr/bin/env python3
"""Prints the formula that N + 1 pigeons sit in N holes, in the DIMACS form: pigeons.py N"""
import itertools
import sys

holes = int(sys.argv[1])


def sits(pigeon, hole):
    return pigeon * holes + hole + 1


clauses = [[sits(pigeon, hole) for hole in range(holes)] for pigeon in range(holes + 1)]
clauses += [[-sits(a, hole), -sits(b, hole)] for hole in range(holes) for a, b in itertools.combinations(range(holes + 1), 2)]
print(f"p cnf {holes * (holes + 1)} {len(clauses)}")
for clause in clauses:
    print(*clause, 0)
