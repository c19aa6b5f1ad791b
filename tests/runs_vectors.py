#!/usr/bin/env python3
"""Makes what the program runs_vectors reads and must write, from a file of sources (its lines `recipe`) that were given a meaning and run.

    python3 tests/runs_vectors.py VECTORS

crates/runs_vectors/stdin has their count, then for each case a line with the length of its source, its bytes and a newline; then, in decimal,
A B C, the four sense switches and the budget; the count of words set before the start and for each its address and value;
the count of moments, the observations of its meaning, and the steps up to each; each number is followed by one blank or newline.
crates/runs_vectors/stdout has the lines `case`, `moments`, `run`, `word` and `end` as the vectors have them. The program stops at each
moment and goes on, so that `run` also says that pieces of a run make one run.

That the meaning's steps fit the run is checked here, for each case:
- the moments begin at 0 and never fall, and the end does not come before the last one;
- `ends N`: the last moment is N, and the run halts, the HLT being its step N + 1, with budget to spare;
- `breaks N` in a source with `.CHECKED`: the run halts at a test's HLT, with 4 to 6 steps more, with budget to spare;
- `breaks N` in any other: the budget is N; `goes on`: N stands for the budget; in both the run makes N steps and is spent.
"""
import pathlib
import sys

CRATE = pathlib.Path(__file__).resolve().parent.parent / "crates" / "runs_vectors"


def octal(fields):
    return [int(field, 8) for field in fields]


def fits(checked, moments, how, run):
    """Whether the steps of the meaning fit the line of the run."""
    budget, outcome, number, steps = int(run[0]), run[1], int(run[2]), int(run[3])
    end = budget if how == ["goes", "on"] else int(how[1])
    if moments[0] != 0 or moments + [end] != sorted(moments + [end]) or number != 0:
        return False
    if how[0] == "ends":
        return moments[-1] == end and outcome == "halted" and steps == end + 1 < budget
    if how[0] == "breaks" and checked:
        return outcome == "halted" and 4 <= steps - end <= 6 and steps < budget
    return outcome == "spent" and steps == end == budget


def main(vectors):
    read, write = b"", []
    count = 0
    for line in pathlib.Path(vectors).read_text().splitlines():
        kind, *fields = line.split()
        if kind == "case":
            words = []
            write.append(line)
        elif kind == "recipe":
            source = bytes.fromhex("".join(fields))
        elif kind == "in":
            a, b, c, switches = fields
            start = [*octal([a, b]), int(c), *map(int, switches)]
        elif kind == "set":
            words += octal(fields)
        elif kind == "moments":
            moments = list(map(int, fields))
            write.append(line)
        elif kind in ("ends", "breaks", "goes"):
            how = [kind, *fields]
        elif kind == "run":
            if not fits(b".CHECKED" in source, moments, how, fields):
                sys.exit(f"case {count}: the run does not fit the meaning's steps")
            start.append(int(fields[0]))
            write.append(line)
        elif kind == "word":
            write.append(line)
        elif kind == "end":
            lines = [start, [len(words) // 2, *words], [len(moments), *moments]]
            read += b"%d\n" % len(source) + source + b"\n"
            read += "".join(" ".join(map(str, numbers)) + "\n" for numbers in lines).encode()
            write.append(line)
            count += 1
    (CRATE / "stdin").write_bytes(b"%d\n" % count + read)
    (CRATE / "stdout").write_text("\n".join(write) + "\n")


if len(sys.argv) != 2:
    sys.exit(__doc__)
main(sys.argv[1])
