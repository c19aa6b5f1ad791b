"""listing_vectors.py VECTORS: makes crates/listing_vectors/stdin and stdout from a folder of NNN.in and NNN.out.

stdin has the count, then for each source its length and its bytes; stdout has a line `case N` before each listing."""
import pathlib
import sys

folder = pathlib.Path(sys.argv[1])
target = pathlib.Path(__file__).parent.parent / "crates" / "listing_vectors"
sources = sorted(folder.glob("*.in"))
given, wanted = b"%d\n" % len(sources), b""
for number, source in enumerate(sources):
    text = source.read_bytes()
    given += b"%d\n" % len(text) + text + b"\n"
    wanted += b"case %d\n" % number + source.with_suffix(".out").read_bytes()
(target / "stdin").write_bytes(given)
(target / "stdout").write_bytes(wanted)
