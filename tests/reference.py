#!/usr/bin/env python3
"""Holds docs/REFERENCE.md, docs/DEMANDS.md and docs/COVERAGE.md against the crates. Reads files only; takes a second or two.

    python3 tests/reference.py            says what does not fit; status 1 if there is anything to say
    python3 tests/reference.py T7 3f      prints the places that cite these numbers

Says which number is cited and does not exist, in comments and documents; which rule or clause has no row of coverage, no definition,
or a definition that does not cite it; which row names something that is not there; which link of a document leads nowhere;
and which must-fail edit does not begin with a comment or is not named in docs/CONTRACTS.md, where names in brackets are those of edits.
It compares numbers and names, not what they say: whether a definition does what its rule says is for a reader, and for what the row names.

A number is cited in a comment by `(T3)`, `(T3, W5)`, `(R2 to R7)` or `(demand 3f)`; in a document anywhere but in backquotes.
A row of coverage is `| number | definitions | what would fail |`. Both lists are groups parted by `; `, each a place and names in backquotes:

    crate/File `name`, ..             specs/File.antt of a crate; the definition, law, field or example of that name
    crate/proofs/File `name`, ..      the same in proofs/
    crate::module::function           a function with its contract in src/
    edits of crate `name`, ..         must-fail edits
    sources `text`, ..                rows of the table in grammar/specs/Failures.antt
    proved `row`, ..                  rows of the table in proved_cases/specs/Table.antt
    stepped `row`, ..                 rows of the table in machine/specs/Examples.antt
    listings N, N to M, ..            outside listings, by number
    machine_cases `case`, ..          cases of that program, and so for paper_cases and page_cases
    the program NAME                  a program whose output is stored and compared
    page FILE.md `heading`            a heading of a page of docs/, up to a backquote in it
    nothing: why                      in the last column, where no check can see the rule broken

The definitions of a row have at least one `crate/File`, or are a page.
"""
import pathlib
import re
import signal
import sys

TOP = pathlib.Path(__file__).resolve().parent.parent
RULE = re.compile(r"(?<![\w'/.-])([A-Z]\d+)(?![\w-])")
CLAUSE = re.compile(r"(?<![\w'/.-])(\d[a-z])(?![\w-])")
HEAD = re.compile(r"^(\s*)(?:(?:unfoldable|abbrev|infixr|pub|data|record|\d+) )*([^\s:({]+)((?: [({].*)?|) :(?: |$)")

problems = []


def problem(place, text):
    problems.append(f"{place}: {text}")


def read(path):
    return path.read_text(encoding="utf-8")


# ---- Numbers

def numbered(path, pattern):
    """The numbers that a page gives out, one a line."""
    found = set()
    for n, line in enumerate(read(path).splitlines(), 1):
        match = re.match(rf"- \*\*({pattern})\*\*(.*)", line)
        if not match:
            continue
        number, text = match.groups()
        if number in found:
            problem(f"docs/{path.name}:{n}", f"{number} stands twice")
        if not text.strip():
            problem(f"docs/{path.name}:{n}", f"{number} says nothing")
        found.add(number)
    return found


def check_gaps(rules):
    """Within a group numbers are counted up; those of F are the failures' own."""
    for group in sorted({rule[0] for rule in rules} - {"F"}):
        numbers = sorted(int(rule[1:]) for rule in rules if rule[0] == group)
        if numbers != list(range(1, len(numbers) + 1)):
            problem("docs/REFERENCE.md", f"the numbers of group {group} are not 1 to {len(numbers)}")


# ---- Citations

def cited(text):
    """The numbers in a text; `R2 to R7` and `3b to 3j` stand for all between as well."""
    found = {*RULE.findall(text), *CLAUSE.findall(text)}
    for group, first, last in re.findall(r"\b([A-Z])(\d+) to \1(\d+)\b", text):
        found.update(f"{group}{n}" for n in range(int(first), int(last) + 1))
    for demand, first, last in re.findall(r"\b(\d)([a-z]) to \1([a-z])\b", text):
        found.update(f"{demand}{chr(n)}" for n in range(ord(first), ord(last) + 1))
    return found


def in_comment(line):
    """What is cited in the comment of a line of code: in brackets, with nothing but numbers in them."""
    match = re.search(r"(?:^|\s)(?:--|//|#)(?:\s|$)(.*)", line)
    brackets = re.findall(r"\((?:demand )?((?:[A-Z]\d+|\d[a-z])(?:(?:, | to | and |, demand )(?:[A-Z]\d+|\d[a-z]))*)\)", match.group(1)) if match else []
    return set().union(*map(cited, brackets))


def unquoted(line):
    """A line of a document without what stands in backquotes."""
    return re.sub(r"`[^`]*`", "", line)


def in_prose(line):
    return cited(unquoted(line))


def citations():
    """Every citation: the file, the line's number, and the numbers cited there."""
    code = [path for suffix in ("antt", "rt", "edit") for path in sorted((TOP / "crates").rglob(f"*.{suffix}")) if "out" not in path.relative_to(TOP).parts]
    pages = [TOP / "README.md", *sorted((TOP / "docs").rglob("*.md")), *sorted((TOP / "tests").glob("*.md"))]
    for part, paths in ((in_comment, code), (in_prose, pages)):
        for path in paths:
            for n, line in enumerate(read(path).splitlines(), 1):
                for number in sorted(part(line)):
                    yield path.relative_to(TOP), n, number


def check_citations(known):
    count = 0
    for path, n, number in citations():
        count += 1
        if number not in known:
            problem(f"{path}:{n}", f"cites {number}, which does not exist")
    return count


def check_links():
    for path in [TOP / "README.md", *sorted((TOP / "docs").rglob("*.md"))]:
        for target in re.findall(r"\]\(([^)#]+)", unquoted(read(path))):
            if "://" not in target and not (path.parent / target).exists():
                problem(path.relative_to(TOP), f"links to {target}, which is not there")


def check_edits():
    """Each must-fail edit says what it shows, and docs/CONTRACTS.md names it with what it rules out."""
    page = read(TOP / "docs/CONTRACTS.md")
    named = re.findall(r"`([a-z0-9_]+)`", " ".join(re.findall(r"\((`[a-z0-9_]+`(?:, `[a-z0-9_]+`)*)[^)]*\)", page)))
    edits = sorted((TOP / "crates").glob("*/must-fail/*.edit"))
    stems = [path.stem for path in edits]
    for path in edits:
        if not read(path).startswith("# "):
            problem(path.relative_to(TOP), "does not say what it shows")
        if named.count(path.stem) < stems.count(path.stem):
            problem("docs/CONTRACTS.md", f"does not name the edit {path.relative_to(TOP)}")
    for name in sorted(set(named) - set(stems)):
        problem("docs/CONTRACTS.md", f"names an edit {name}, which is not there")


# ---- Definitions and what they cite

class Definitions:
    """The declarations of a file of definitions: each with the numbers that the comments above it and in it cite. A field or constructor
    belongs to its record or data type, and has a head of its own too. What the file's first comment cites, all its declarations cite."""

    def __init__(self, path):
        self.cites = {}
        lines = read(path).splitlines()
        header = 0
        while header < len(lines) and lines[header].startswith("--"):
            header += 1
        common = set().union(*map(in_comment, lines[:header]))
        above, owner, owner_indent, owner_has_parts = set(), None, 0, False
        for line in lines[header:]:
            text = line.strip()
            if text.startswith("--"):
                above |= in_comment(text)
                continue
            if not text or re.match(r"(unfoldable )?(module|mutual)\b", text):
                above = set()
                owner = owner if not text else None
                continue
            indent = len(line) - len(line.lstrip())
            match = HEAD.match(line)
            if match and not text.startswith(("use ", "unfolding ")):
                name = match.group(2)
                self.cites.setdefault(name, set()).update(common | above)
                if owner and indent > owner_indent and owner_has_parts:
                    self.cites[owner] |= above
                else:
                    owner, owner_indent, owner_has_parts = name, indent, bool(re.search(r"\b(data|record)\b.* where$", text))
            elif owner:
                self.cites[owner] |= above
            above = set()


cache = {}


def definitions(place):
    """The declarations of `crate/File`, or None where there is no such file."""
    crate, _, file = place.partition("/")
    path = TOP / "crates" / crate / ("" if file.startswith("proofs/") else "specs") / f"{file}.antt"
    if path not in cache:
        cache[path] = Definitions(path) if file and path.exists() else None
    return cache[path]


# ---- What the groups of a row name: each function answers what of them is not there

def names(text):
    return re.findall(r"`([^`]+)`", text)


def absent(wanted, there):
    return [name for name in wanted if name not in there]


def stored(crate):
    """The lines that a program must write."""
    return (TOP / "crates" / crate / "stdout").read_text(encoding="latin-1").splitlines()


def function(place):
    """A function that is not there, or has no contract: its head ends with the line that opens its body."""
    crate, *module, name = place.split("::")
    path = TOP / "crates" / crate / "src" / f"{'/'.join(module) or 'lib'}.rt"
    lines = read(path).splitlines() if path.exists() else []
    for n, line in enumerate(lines):
        if re.match(rf'pub (extern "C" )?fn {name}\(', line):
            head = lines[n:next(m for m in range(n, len(lines)) if re.match(r"(\{.*|(?!\s*(ensures|requires)).* \{)$", lines[m])) + 1]
            return [] if any(re.match(r"\s+ensures ", part) for part in head) else [place]
    return [place]


def edits(rest):
    folder = TOP / "crates" / rest.split(" ")[1] / "must-fail"
    return absent(names(rest), {path.stem for path in folder.glob("*.edit")})


def failure_rows(rest):
    return absent(names(rest), re.findall(r'^ *\("(.*)", \d+, \d+\)', read(TOP / "crates/grammar/specs/Failures.antt"), re.M))


def proved(rest):
    return absent(names(rest), re.findall(r'case "(.*)"', read(TOP / "crates/proved_cases/specs/Table.antt")))


def stepped(rest):
    return absent(names(rest), re.findall(r'^ *"(.*)",$', read(TOP / "crates/machine/specs/Examples.antt"), re.M))


def listings(rest):
    there, gone = set(stored("listing_vectors")), []
    for first, last in re.findall(r"(\d{3})(?: to (\d{3}))?", rest):
        gone += absent((f"case {n}" for n in range(int(first), int(last or first) + 1)), there)
    return gone if re.search(r"\d{3}", rest) else ["a listing's number"]


def cases(crate):
    return lambda rest: absent(names(rest), {line.partition(": ")[0] for line in stored(crate)})


def program(rest):
    return [] if (TOP / "crates" / rest.split(" ")[-1] / "stdout").exists() else [rest]


def page(rest):
    path = TOP / "docs" / rest.split(" ")[0]
    return [rest] if not path.exists() else [name for name in names(rest) if not re.search(rf"^#+ {re.escape(name)}(?: `|$)", read(path), re.M)]


PLACES = {
    "edits": edits, "sources": failure_rows, "proved": proved, "stepped": stepped, "listings": listings, "the": program, "page": page,
    "machine_cases": cases("machine_cases"), "paper_cases": cases("paper_cases"), "page_cases": cases("page_cases"), "nothing:": lambda rest: [],
}


def missing(group):
    """What of a group is not there: of one that names nothing, the group itself."""
    place, _, rest = group.partition(" ")
    if "::" in place:
        return function(place)
    if not names(rest) and place not in ("listings", "the", "nothing:"):
        return [group]
    if place in PLACES:
        return PLACES[place](rest)
    file = definitions(place)
    return [group] if file is None else [f"{place} {name}" for name in names(rest) if name not in file.cites]


# ---- Rows of coverage

def groups(column):
    """The groups of a column: a `;` in backquotes parts none."""
    return [group.strip() for group in re.findall(r"(?:[^;`]|`[^`]*`)+", column) if group.strip()]


def rows():
    for n, line in enumerate(read(TOP / "docs/COVERAGE.md").splitlines(), 1):
        match = re.match(r"\| ([A-Z]\d+|\d[a-z]) \| (.*) \| (.*) \|$", line)
        if match:
            yield f"docs/COVERAGE.md:{n}", *match.groups()


def check_row(place, number, defined, fails):
    for column in (defined, fails):
        if not groups(column):
            problem(place, f"{number} has an empty column")
        for group in groups(column):
            for name in missing(group):
                problem(place, f"{number} names {name}, which is not there")
    if not any(definitions(group.split(" ")[0]) or group.startswith("page ") for group in groups(defined)):
        problem(place, f"{number} has no definition")
    for group in groups(defined):
        where, _, rest = group.partition(" ")
        file = definitions(where)
        for name in names(rest) if file else []:
            if name in file.cites and number not in file.cites[name]:
                problem(place, f"{number} is defined by {where} {name}, which does not cite it")


def main():
    signal.signal(signal.SIGPIPE, signal.SIG_DFL)
    if len(sys.argv) > 1:
        for path, n, number in citations():
            if number in sys.argv[1:]:
                print(f"{path}:{n}: {number}")
        return
    rules = numbered(TOP / "docs/REFERENCE.md", r"[A-Z]\d+")
    clauses = numbered(TOP / "docs/DEMANDS.md", r"\d[a-z]")
    # A request is cited by its number too: docs/changes has its note.
    requests = {path.stem for path in (TOP / "docs/changes").glob("L*.md")}
    check_gaps(rules)
    count = check_citations(rules | clauses | requests)
    check_links()
    check_edits()
    covered = set()
    for place, number, defined, fails in rows():
        if number in covered:
            problem(place, f"{number} has a second row")
        covered.add(number)
        check_row(place, number, defined, fails)
    for number in sorted((rules | clauses) - covered):
        problem("docs/COVERAGE.md", f"{number} has no row, and so no definition")
    for line in problems:
        print(line)
    plural = "" if len(problems) == 1 else "s"
    print(f"{len(rules)} rules, {len(clauses)} clauses of the demands, cited {count} times: {len(problems) or 'no'} problem{plural}")
    sys.exit(1 if problems else 0)


main()
