#!/usr/bin/env python3
"""Writes boards for judge_many: boards.py KIND SIDE COUNT, to standard output.

Kinds: empty; single (stones on every other point); sparse (black stones on every other point of every other row); snake (one chain
through the board); eyes (black, full of one-point eyes); random (a third of the points each, chains without a liberty taken off);
late (white and black territories with stones inside).
"""
import random
import sys


def near(w, p):
    x, y = p % w, p // w
    return [q for q, there in ((p - w, y > 0), (p - 1, x > 0), (p + 1, x < w - 1), (p + w, y < w - 1)) if there]


def chain_of(w, cells, p):
    """The points of p's chain, and whether it has a liberty."""
    chain, todo, free = {p}, [p], False
    while todo:
        for q in near(w, todo.pop()):
            if cells[q] == ".":
                free = True
            elif cells[q] == cells[p] and q not in chain:
                chain.add(q)
                todo.append(q)
    return chain, free


def settle(w, cells):
    """Takes off chains without a liberty, so that the board can stand."""
    seen = set()
    for start in range(w * w):
        if cells[start] != "." and start not in seen:
            chain, free = chain_of(w, cells, start)
            seen |= chain
            if not free:
                for q in chain:
                    cells[q] = "."
    return cells


def board(kind, w, rng):
    points = range(w * w)
    if kind == "empty":
        return ["."] * (w * w)
    if kind == "single":
        return ["X" if (p % w + p // w) % 2 == 0 else "." for p in points]
    if kind == "sparse":
        return ["X" if p // w % 2 == 0 and p % w % 2 == 0 else "." for p in points]
    if kind == "snake":
        turns = lambda p: p // w % 4 == 1 and p % w == w - 1 or p // w % 4 == 3 and p % w == 0
        return ["X" if p // w % 2 == 0 or turns(p) else "." for p in points]
    if kind == "eyes":
        return ["." if p // w % 2 == 1 and p % w % 2 == 1 else "X" for p in points]
    if kind == "random":
        return settle(w, [rng.choice(".XO") for _ in points])
    half = [("X" if p % w < w // 2 else "O") for p in points]
    for p in points:
        if rng.random() < 0.25:
            half[p] = "."
        elif rng.random() < 0.06:
            half[p] = "O" if half[p] == "X" else "X"
    return settle(w, half)


def main():
    kind, side, count = sys.argv[1], int(sys.argv[2]), int(sys.argv[3])
    rng = random.Random(1976)
    for _ in range(count):
        sys.stdout.buffer.write(bytes([side, side]) + "".join(board(kind, side, rng)).encode())


if __name__ == "__main__":
    main()
