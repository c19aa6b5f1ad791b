#!/usr/bin/env python3
"""Makes what the program machine_vectors reads and must write, from a file of machine vectors.

    python3 tests/machine_vectors.py VECTORS

crates/machine_vectors/stdin has the cases' inputs: their count, then for each case
A B C P, the four sense switches, halted, clock, budget, cooperative, the sixteen counts,
the count of words and for each its address and value; all decimal, each number followed
by one blank or newline.
crates/machine_vectors/stdout has the expected lines, as the vectors have them.
"""
import pathlib
import sys

CRATE = pathlib.Path(__file__).resolve().parent.parent / "crates" / "machine_vectors"


def inputs(fields):
    a, b, c, p, switches, halted, clock, budget = fields
    return [int(a, 8), int(b, 8), c, p, *switches, halted, clock, budget]


def main(vectors):
    read, write = [], []
    state, words, expected = [], [], False
    for line in pathlib.Path(vectors).read_text().splitlines():
        kind, *fields = line.split()
        if kind == "case":
            state, words, expected = [], [], False
            write.append(line)
        elif kind == "in":
            state = inputs(fields)
        elif kind == "coop":
            state += fields
        elif kind == "out":
            expected = True
            write.append(line)
        elif kind in ("counts", "word") and expected:
            write.append(line)
        elif kind == "counts":
            state += fields
        elif kind == "word":
            words += [int(field, 8) for field in fields]
        elif kind == "end":
            read.append(state + [len(words) // 2] + words)
    lines = [" ".join(map(str, case)) for case in [[len(read)]] + read]
    (CRATE / "stdin").write_text("\n".join(lines) + "\n")
    (CRATE / "stdout").write_text("\n".join(write) + "\n")


if len(sys.argv) != 2:
    sys.exit(__doc__)
main(sys.argv[1])
