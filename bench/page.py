"""Times `page` on 1,000 farms with names of 14 bytes and 32,767 litres each: crates/page_vectors/out/page_vectors is run on 12 copies of that case, as many as it can read,
and on one, and the difference is shared out. The time includes reading the case, filling the output and writing the page; the program reads a file and writes to nowhere,
since a pipe would take longer than the page. Run it after `(cd crates/page_vectors && rt run <stdin >/dev/null)`, which builds that."""
import pathlib
import subprocess
import tempfile
import time

PROGRAM = pathlib.Path(__file__).parent.parent / "crates" / "page_vectors" / "out" / "page_vectors"
FARMS, COPIES, ROUNDS = 1000, 12, 400

NAMES = b"".join(b"FARM %09d\n" % i for i in range(FARMS))
CASE = b"%d %d" % (31 * FARMS, FARMS) + b" 32767" * FARMS + b"\n%d\n" % len(NAMES) + NAMES + b"\n"


def run(given, stdout):
    given.seek(0)
    start = time.perf_counter()
    done = subprocess.run([PROGRAM], stdin=given, stdout=stdout, check=True)
    return time.perf_counter() - start, done.stdout


def seconds(copies):
    with tempfile.TemporaryFile() as given:
        given.write(b"%d\n" % copies + CASE * copies)
        _, written = run(given, subprocess.PIPE)
        assert written.count(b"made %d\n" % (31 * FARMS)) == copies
        return min(run(given, subprocess.DEVNULL)[0] for _ in range(ROUNDS))


many, one = seconds(COPIES), seconds(1)
print(f"{FARMS} farms: {(many - one) / (COPIES - 1) * 1000000:.0f} microseconds")
