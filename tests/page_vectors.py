"""page_vectors.py VECTORS: makes crates/page_vectors/stdin and stdout from page.txt in a folder of outside pages.

stdin has the count, then for each case a line with the output's length, the count of litres and the litres, and the length of the names and their bytes;
stdout has a line `case N`, the answer, the page, and that all other bytes are kept."""
import pathlib
import sys

folder = pathlib.Path(sys.argv[1])
target = pathlib.Path(__file__).parent.parent / "crates" / "page_vectors"


def raw(field):
    return b"" if field == "-" else bytes.fromhex(field)


cases, given, wanted = 0, b"", b""
for line in (folder / "page.txt").read_text().splitlines():
    kind, *fields = line.split()
    if kind == "case":
        wanted += line.encode() + b"\n"
    elif kind == "names":
        names = raw(*fields)
    elif kind == "litres":
        litres = fields
    elif kind == "room":
        numbers = " ".join([*fields, str(len(litres)), *litres]).encode()
        given += numbers + b"\n%d\n" % len(names) + names + b"\n"
    elif kind == "out":
        failure, length = fields
        wanted += f"made {length}\n".encode() if failure == "0" else f"failed {failure}\n".encode()
    elif kind == "page":
        wanted += raw(*fields) + b"kept\n"
    elif kind == "end":
        cases += 1
(target / "stdin").write_bytes(b"%d\n" % cases + given)
(target / "stdout").write_bytes(wanted)
