#!/usr/bin/env python3
"""Prints the longest chain of crates and the one that takes longest: chains.py CRATES.TXT [MINUTES.TXT]

MINUTES.TXT is what gate_times.py wrote; a crate of a chain counts with the minutes of its library or program, as each crate has one processor.
"""
import re
import sys


def crates_in(path):
    """Each crate's own libraries of this repository."""
    below = {}
    for line in open(path, encoding="utf-8"):
        line = line.split("#")[0].strip()
        if ":" in line:
            name, rest = line.split(":", 1)
            below[name.split()[0]] = rest.split()
    return {name: [it for it in rest if it in below] for name, rest in below.items()}


def minutes_in(path):
    found = {}
    for line in open(path, encoding="utf-8"):
        told = dict(re.findall(r"(library|program) ([\d.]+)", line))
        name = line.split()[0]
        if told:
            found[name] = sum(map(float, told.values()))
    return found


def longest(below, weight):
    """The heaviest chain, from the lowest crate up, and its weight."""
    best = {}

    def chain(name):
        if name not in best:
            under = max((chain(it) for it in below[name]), default=(0.0, []))
            best[name] = (under[0] + weight(name), [*under[1], name])
        return best[name]

    return max(chain(name) for name in below)


def main(crates, minutes=None):
    below = crates_in(crates)
    count, names = longest(below, lambda name: 1)
    print(f"longest chain, {count:.0f} crates: {' '.join(names)}")
    if minutes:
        taken = minutes_in(minutes)
        sum_of, names = longest(below, lambda name: taken.get(name, 0.0))
        print(f"slowest chain, {sum_of:.1f} minutes: {' '.join(f'{name} {taken.get(name, 0.0):.1f}' for name in names)}")


if __name__ == "__main__":
    main(*sys.argv[1:])
