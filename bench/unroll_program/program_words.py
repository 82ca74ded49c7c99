"""Writes a guarded program as little-endian words of 32 bits: python3 program_words.py FILE.gp WORDS

An expression stands as its kind (0 constant, 1 cell, 2 pick, 3 one operand, 4 two operands, 5 choice), its numbers, then its parts."""
import struct
import sys

UN = ["Not", "Neg", "Inv", "Low8", "Low16", "Sign8", "Sign16", "Bool"]
BIN = ["Add", "Sub", "Mul", "DivU", "DivS", "RemU", "RemS", "And", "Or", "Xor", "Shl", "ShrU", "ShrS", "Eq", "LtU", "LtS", "LeU", "LeS",
       "AddOver", "SubOver", "MulOver"]
CONTROL = {"goto": 0, "push": 1, "pop": 2, "poppush": 3, "fail": 4}
words = []
tokens = iter(open(sys.argv[1]).read().split())


def number():
    return int(next(tokens))


def expression():
    kind = next(tokens)
    if kind == "K":
        words.extend([0, number() % 2**32])
    elif kind == "C":
        words.extend([1, number(), number()])
    elif kind == "P":
        words.extend([2, number(), number(), number()])
        expression()
    elif kind == "U":
        words.extend([3, UN.index(next(tokens))])
        expression()
    elif kind == "B":
        words.extend([4, BIN.index(next(tokens))])
        expression()
        expression()
    else:
        words.append(5)
        for _ in range(3):
            expression()


def control():
    kind = next(tokens)
    places = []
    token = next(tokens)
    while token != "in":
        places.append(int(token))
        token = next(tokens)
    words.extend([CONTROL[kind]] + (places + [0, 0])[:2])


def alternative():
    words.append(number())
    control()
    words.append(number())
    next(tokens)
    sets = number()
    expression()
    words.append(sets)
    for _ in range(sets):
        words.append(number())
        expression()


next(tokens)
cells = number()
words.append(cells)
for _ in range(cells):
    words.extend([number(), number()])
next(tokens)
first = number()
words.append(first)
for _ in range(first):
    words.append(number())
next(tokens)
words.append(number())
next(tokens)
number()
next(tokens)
points = number()
words.append(points)
for _ in range(points):
    alternatives = number()
    words.append(alternatives)
    for _ in range(alternatives):
        alternative()
open(sys.argv[2], "wb").write(struct.pack("<%dI" % len(words), *words))
