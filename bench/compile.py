"""Times `compile` on sources of 8,192 bytes: crates/listing_vectors/out/listing_vectors is run on 31 copies of a source and on one, and the
difference is shared out. The time includes filling the lent words and writing the listing. Run it after `(cd crates/listing_vectors && rt run <stdin >/dev/null)`, which builds that."""
import pathlib
import subprocess
import time

PROGRAM = pathlib.Path(__file__).parent.parent / "crates" / "listing_vectors" / "out" / "listing_vectors"
LENGTH, COPIES, ROUNDS = 8192, 31, 40


def filled(start, part, end):
    """The start, as many parts as fit, blanks, and the end: 8,192 bytes."""
    count = (LENGTH - len(start) - len(end)) // len(part)
    return (start + "".join(part.replace("%", str(i)) for i in range(count)) + end).ljust(LENGTH).encode()


def names(count):
    return ",".join("".join(chr(65 + i // n % 26) for n in (676, 26, 1)) for i in range(1, count + 1))


SOURCES = {
    "empty statements": filled(".BEGIN ", ";", " .END"),
    "unary words": filled(".BEGIN @=", ".NOT", " @ .END"),
    "unary words, four sectors": filled(".BEGIN ", ".PROCEDURE P%; .BEGIN @=" + ".NOT" * 497 + "@ .END; .NEXTSECTOR;", ".END"),
    "keywords at the table's end": filled(".BEGIN ", ".WHEN .NOKEY .THEN;", " .END"),
    "the oldest of 380 names": filled(".BEGIN .INTEGER QQ," + names(379) + "; ", "QQ=QQ;", " .END"),
    "the same, four sectors": filled(".BEGIN .INTEGER QQ," + names(370) + "; ", ".PROCEDURE P%; .BEGIN " + "QQ=QQ;" * 252 + " .END; .NEXTSECTOR;", ".END"),
    "1,400 locals, 360 globals": filled(".BEGIN .INTEGER " + names(360) + "; ", ".PROCEDURE P%; .BEGIN .INTEGER " + names(100) + "; .END; .NEXTSECTOR;", ".END"),
    "brackets": filled(".BEGIN @=", "(", " .END"),
}


def seconds(source, copies):
    given = b"%d\n" % copies + (b"%d\n" % len(source) + source + b"\n") * copies
    best = None
    for _ in range(ROUNDS):
        start = time.perf_counter()
        run = subprocess.run([PROGRAM], input=given, stdout=subprocess.PIPE, check=True)
        took = time.perf_counter() - start
        best = took if best is None else min(best, took)
    return best, run.stdout.split(b"\n")[1].decode()


for name, source in SOURCES.items():
    many, answer = seconds(source, COPIES)
    one, _ = seconds(source, 1)
    print(f"{name:32} {answer:10} {(many - one) / (COPIES - 1) * 1000:6.2f} ms")
