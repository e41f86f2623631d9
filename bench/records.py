#!/usr/bin/env python3
"""Writes a record for referee_record: records.py SIDE MOVES, to standard output.

Random moves that the rules allow, on an empty square board; a side that has none passes, and the record stops before a second pass.
"""
import random
import sys

from boards import chain_of, near


def after(w, cells, colour, p):
    """The board after a stone, or None where it is not allowed."""
    cells = list(cells)
    if cells[p] != ".":
        return None
    cells[p] = colour
    for q in near(w, p):
        if cells[q] not in (".", colour):
            chain, free = chain_of(w, cells, q)
            if not free:
                for r in chain:
                    cells[r] = "."
    return cells if chain_of(w, cells, p)[1] else None


def moves(w, count, rng):
    cells, before, passed = ["."] * (w * w), None, False
    for turn in range(count):
        points = list(range(w * w))
        rng.shuffle(points)
        for p in points:
            board = after(w, cells, "XO"[turn % 2], p)
            if board is not None and board != before:
                before, cells, passed = cells, board, False
                yield p
                break
        else:
            if passed:
                return
            before, passed = None, True
            yield 65535


def main():
    side, count = int(sys.argv[1]), int(sys.argv[2])
    record = b"".join(bytes([p & 255, p >> 8]) for p in moves(side, count, random.Random(1976)))
    sys.stdout.buffer.write(bytes([side, side]) + b"." * (side * side) + record)


if __name__ == "__main__":
    main()
