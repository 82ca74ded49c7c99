#!/usr/bin/env python3
"""Writes a formula in the DIMACS form as the front of a certificate, which the program reads: certificate_of.py FILE.cnf OUT

The last clause becomes the goal, as a run pushes its goal behind the formula. The log is empty and the verdict undecided.
"""
import sys


def main(path, out):
    variables, clauses = 0, [[]]
    for line in open(path, encoding="utf-8"):
        parts = line.split()
        if not parts or parts[0] == "c":
            continue
        if parts[0] == "p":
            variables = int(parts[2])
            continue
        for number in map(int, parts):
            if number:
                clauses[-1].append(number)
            else:
                clauses.append([])
    clauses = [sorted(set(clause), key=abs) for clause in clauses if clause]
    with open(out, "w", encoding="utf-8") as file:

        def put(front, clause):
            file.write(" ".join([*front, *map(str, clause), "0"]) + "\n")

        file.write(f"oschk certificate 1\nbounds 0 0\nbudget 0\nvariables {variables}\nclauses {len(clauses) - 1}\n")
        for clause in clauses[:-1]:
            put([], clause)
        put(["goal"], clauses[-1])
        file.write("labels 0\ndepth 0 0 1\nlog\nverdict undecided\nend\n")


main(*sys.argv[1:])
