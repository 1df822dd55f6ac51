"""Where the documents state a count, or list what the tree has, and what crates.txt lists: each is compared with the tree."""
import collections
import os
import re

from .sources import TOP, crates

NUMBERS = dict(zip("one two three four five six seven eight nine ten eleven twelve thirteen fourteen fifteen sixteen seventeen "
                   "eighteen nineteen twenty".split(), range(1, 21)))


def number(word):
    """The number that a word or digits stand for, or None."""
    return int(word.replace(",", "")) if word[0].isdigit() else NUMBERS.get(word.lower())


def told(name, form):
    """What a file has in the place of the group of a form, which must stand there."""
    found = re.search(form, (TOP / name).read_text())
    if not found:
        raise LookupError(f"{name}: nothing like {form}")
    return found[1]


def table_below(name, head):
    """The first cells of the table whose head follows these words, or begins with them."""
    rows = told(name, rf"(?s){re.escape(head)}.*?\n\|[-|]*\|\n((?:\|[^\n]*(?:\n|\Z))+)")
    return [row.split("|")[1].strip() for row in rows.strip().split("\n")]


def compared(name, what, stated, there):
    """What a document says too much or too little of."""
    stated, there = list(stated), list(there)
    return [*(f"{name}: {what}: {it} is missing" for it in there if it not in stated),
            *(f"{name}: {what}: {it} isn't there" for it in stated if it not in there),
            *(f"{name}: {what}: {it} twice" for it in set(stated) if stated.count(it) > 1)]


def crate_tables():
    """The tables of crates, and the list of the kit's crates, against crates.txt."""
    listed = list(crates())
    plain = [[it.strip("`") for it in table_below(name, head)] for name, head in
             [("docs/ARCHITECTURE.md", "| Crate | Holds |"), ("docs/ARCHITECTURE.md", "| Crate | Proves |"),
              ("docs/ARCHITECTURE.md", "| Crate | Shows or tests |"), ("docs/GATE.md", "| Crate | Lines |"),
              ("docs/how-to/add-a-row.md", "| Crate | A row is |")]]
    trusted = told("README.md", r"(?s)kit.s contracts for\s+(.*?)\.\s+The C library")
    kit = {it for below in crates().values() for it in below} - set(listed)
    return [*compared("docs/ARCHITECTURE.md", "crates", sum(plain[:3], []), listed),
            *compared("docs/GATE.md", "crates", plain[3], [*listed, "all"]),
            *compared("docs/how-to/add-a-row.md", "crates of rows", plain[4], [it for it in listed if it.startswith("rows_")]),
            *compared("README.md", "crates of the kit", re.findall(r"`(\w+)`(?! also)", trusted), kit)]


def help_lines(file):
    """The lines of a program's help, after its usage."""
    return told(f"crates/cacache_program/src/{file}", r'(?s)HELP: &str =\s*"[^\n]*\n(.*?)";')


def words():
    """The words of the two programs, against their help."""
    cells = table_below("docs/PROGRAMS.md", "The program `cacache` has these words:")
    stated = [it for cell in cells for it in re.findall("`([^`]+)`", cell)]
    # with their arguments, but for those that stand before others
    uses = [it for cell in re.findall(r"(?m)^  (\S.*?)  ", help_lines("about.rt")) for it in cell.split(", ") if it != "--why"]
    wrong = compared("docs/PROGRAMS.md", "words of cacache", stated, uses)
    shown = told("docs/PROGRAMS.md", r"(?s)For a cache that wasn't cleared.*?\n\n(.*?)\n\n")
    names = list(dict.fromkeys(re.findall(r"(?m)^  ([a-z][\w-]*) ", help_lines("keep/about.rt"))))
    return wrong + compared("docs/PROGRAMS.md", "words of cacache-keep", re.findall(r"(?m)^    cacache-keep ([\w-]+)", shown), names)


def documents():
    """The lists of documents: README has those in capital letters, CONTRIBUTING the others."""
    there = [str(it.relative_to(TOP)) for it in TOP.glob("docs/*.md")]
    how_to = [str(it.relative_to(TOP)) for it in TOP.glob("docs/how-to/*.md")]
    main = [it for it in there if it.split("/")[1][0].isupper()]
    for name, head, wanted in [("README.md", "| Question | Document |", main), ("CONTRIBUTING.md", "| To | Page |", how_to),
                               ("CONTRIBUTING.md", "| Fact | Document |", {*there} - {*main})]:
        links = re.findall(r"\]\((docs/[\w./-]+)\)", told(name, rf"(?s){re.escape(head)}(.*?)(?:\n\n|\Z)"))
        yield from compared(name, "documents", links, wanted)


def rows():
    """The numbers of rows that the page of limits states, those of one file added up, against what `all_rows` prints of it."""
    text, stated = " ".join((TOP / "docs/LIMITS.md").read_text().split()), collections.Counter()
    for count, name in re.findall(r"by ([\d,]+) rows[^(]*\(`(\w+)\.rows`", text):
        stated[name] += number(count)
    for name, count in stated.items():
        there = told("crates/all_rows/stdout", rf"(?ms)^== {name}$.*?^all: (\d+) rows hold$")
        if count != int(there):
            yield f"docs/LIMITS.md: {count} rows of {name}, and there are {there}"


def lists():
    """Each text that begins with a number, as `Five programs .. :`, against the list that follows, or the names behind the colon."""
    form = r"(?m)^(?:- )?([A-Z]\w+) (\w+)[^:\n]*:(?=(.*(?:\n(?!- ).+)*)((?:\n\n?- (?:.|\n(?!\n|#))*)*))"
    names = ("README.md", "CONTRIBUTING.md", "CHANGELOG.md")
    for name, it in ((name, it) for name in names for it in re.finditer(form, (TOP / name).read_text())):
        there = len(re.findall(r"`\w+`", it[3]) if it[3].strip() else re.findall(r"(?m)^- ", it[4]))
        if there and number(it[1]) not in (None, there):
            yield f"{name}: {it[1]} {it[2]}, and there are {there}"


def variants(file, kind, form):
    """How many variants or constructors a type has."""
    return len(re.findall(form, told(file, rf"(?ms)^pub {kind}\b(.*?)(?=^\S|\Z)")))


def stated():
    """Single numbers in a document, each behind its words, with what there is."""
    edits = list(TOP.glob("crates/*/must-fail/*.edit"))
    steps = variants("crates/cacache_store/src/store/step.rt", "enum Step", r"(?m)^    [A-Z]")
    states = variants("crates/cacache_calls/specs/State.antt", "data State", r"(?m)^  \w+ :")
    for name, form, there in [
            ("docs/GATE.md", r"names: (\w+) in \w+ crates", len(edits)),
            ("docs/GATE.md", r"names: \w+ in (\w+) crates", len({it.parent for it in edits})),
            ("docs/ARCHITECTURE.md", r"`Step` has (\w+) kinds", steps),
            ("docs/ARCHITECTURE.md", r"at once: (\w+) \*\*states\*\*", states),
            ("docs/promises-model.md", r"the table of the (\w+) steps", steps),
            ("docs/DEFINITIONS.md", r"the table of the (\w+) steps", steps)]:
        found = re.search(form, " ".join((TOP / name).read_text().split()))
        if not found or number(found[1]) != there:
            yield f"{name}: {found[0] if found else f'nothing like {form}'}, and there are {there}"


def tools():
    """The table of the tools, against the programs among them."""
    there = [str(it.relative_to(TOP)) for it in TOP.glob("tools/**/*") if it.is_file() and os.access(it, os.X_OK)]
    stated = [it.strip("`").split()[0] for it in table_below("CONTRIBUTING.md", "| Tool | What it does |")]
    return compared("CONTRIBUTING.md", "tools", stated, there)


def libraries():
    """What crates.txt lists that the crate itself doesn't name."""
    for crate, below in crates().items():
        sources = (it for part in ("src", "specs", "proofs") for it in (TOP / "crates" / crate / part).rglob("*.*t*"))
        text = "\n".join(re.sub(r"(?m)(?:^|\s)(?://|--).*$", "", it.read_text()) for it in sources)  # without comments
        for it in below:
            if not re.search(rf"\bRattle\.{it}\b|(?<![\w:]){it}(?:::|!)|\buse {it}\b", text):
                yield f"crates.txt: {crate} lists {it}, which it doesn't name"


def wrong_counts():
    """All that is wrong."""
    for check in (crate_tables, libraries, words, documents, tools, rows, lists, stated):
        try:
            yield from check()
        except LookupError as missing:
            yield str(missing.args[0])
