"""What `check` and `try` share: the edits and the texts that they make; and what all tools do: read crates.txt, begin and end."""
import functools
import pathlib
import re
import sys
import typing

TOP = pathlib.Path(__file__).resolve().parent.parent.parent
TRIED = TOP / "tools/edits/TRIED"


def begun(text, fits=True):
    """Begins a tool: shows its help and ends it if that is asked for, or if the words that it is given don't fit."""
    if "--help" in sys.argv[1:] or not fits:
        print(text)
        sys.exit(0 if "--help" in sys.argv[1:] else 2)


def ended(faults, *said):
    """Ends a tool that looked for faults: prints each, and what else is to be said."""
    print("".join(f"{it}\n" for it in (*faults, *said)), end="")
    sys.exit(1 if faults else 0)


class Edit(typing.NamedTuple):
    """An edit: its name, the file that has it, and its lines."""

    name: str
    place: pathlib.Path
    lines: tuple

    def __str__(self):
        return f"{self.place.relative_to(TOP)}: {self.name}"


def edits_in(place):
    """The edits of a file: one of the gate is one edit, and one of this folder has those of a crate, each after a line `edit: NAME`. What
    stands before the first of these lines is an edit without a name, which can't be made."""
    if place.suffix == ".edit":
        return [Edit(place.stem, place, tuple(place.read_text().splitlines()))]
    parts = re.split(r"(?m)^edit: (.*)\n", "edit: \n" + place.read_text())
    edits = [Edit(name, place, tuple(it for it in text.splitlines() if it.strip())) for name, text in zip(parts[1::2], parts[2::2])]
    return edits if edits[0].lines else edits[1:]


def fields_of(edit):
    """The file that an edit changes, its pairs of old and new text, and the lines that are neither."""
    path, pairs, others = "", [], []
    for line in edit.lines:
        word, _, text = line.partition(":")
        text = text.removeprefix(" ")
        if word == "file":
            path = text.strip()
        elif word == "old":
            pairs.append([text, None])
        elif word == "new" and pairs:
            pairs[-1][1] = text
        else:
            others.append(line)
    return path, pairs, others


def edited(folder, edit):
    """The file of an edit below the crate's folder, its text with the edit, and why the edit can't be made."""
    path, pairs, others = fields_of(edit)
    file = folder / path
    if others:
        return file, "", f"a line that nobody reads: {others[0]}"
    if not file.is_file():
        return file, "", f"no file {path}"
    text = file.read_text()
    for old, new in pairs:
        if new is None or old == new:
            return file, text, "no other text"
        if text.count(old) != 1:
            return file, text, f"stands {text.count(old)} times: {old}"
        text = text.replace(old, new)
    return file, text, None if pairs else "no old text"


def all_of(crate):
    """All edits of a crate: those that the gate tries, and those of tools/edits."""
    places = sorted(TOP.glob(f"crates/{crate}/must-fail/*.edit")) + sorted(TOP.glob(f"tools/edits/{crate}.edits"))
    return [edit for place in places for edit in edits_in(place)]


@functools.cache
def crates():
    """The crates of crates.txt, each with what it lists, in the file's order."""
    lines = (it.split("#")[0].partition(":") for it in (TOP / "crates.txt").read_text().splitlines())
    return {name.split()[0]: words.split() for name, colon, words in lines if colon}


def sum_of(crate):
    """A hash over what the edits of a crate were tried on: its code, definitions and proofs, and the edits."""
    folder = TOP / "crates" / crate
    files = [it for part in ("src", "specs", "proofs") for it in (folder / part).rglob("*") if it.is_file()]
    import hashlib  # here, since the memory that it takes would count as that of each program that tools/speed starts
    digest = hashlib.sha256()
    for file in sorted(files) + sorted({edit.place for edit in all_of(crate)}):
        digest.update(f"{file.relative_to(TOP)}\0{file.stat().st_size}\0".encode() + file.read_bytes())
    return digest.hexdigest()[:16]


def tried():
    """The lines of TRIED by their crates: how many edits, the commit, and the hash."""
    lines = TRIED.read_text().splitlines() if TRIED.exists() else []
    return dict(line.split(maxsplit=1) for line in lines)


def note(crate, count, commit):
    """Writes the crate's line in TRIED anew."""
    lines = {**tried(), crate: f"{count} {commit} {sum_of(crate)}"}
    TRIED.write_text("".join(f"{it} {lines[it]}\n" for it in sorted(lines)))


class Body(typing.NamedTuple):
    """What an edit changes: the file below the crate's folder, the lines with its texts, the names by which a check may know the function,
    the likeliest first, that function's first and last line, and the clauses that a written answer shows. The last name is the module."""

    path: str
    lines: frozenset
    names: tuple
    span: tuple
    answered: frozenset


HEAD = re.compile(r"(?m)^( *)(?:#\[.*\] *)?(?:pub(?:\([^)]*\))? )?(?:const )?(?:unsafe )?fn (\w+)")
IMPL = re.compile(r"(?m)^impl(?:<[^{]*?>)? (?:([\w:]+)(?:<([^{]*?)>)? for )?([\w:]+)")


def kind_of(impl):
    """The name of an impl, as a check has it: the type, the trait and the trait's argument, or for `Drop` the type alone."""
    trait, argument, kind = impl.groups()
    words = [(it or "").split("::")[-1] for it in (kind, trait)]
    if trait == "Drop":
        return words[0]
    return "".join([*words, re.match(r"\w*", argument)[0] if trait == "From" else ""])


def clause_of(goal):
    """The clause of a goal, as `told` of `returns-in-Write-clause-told`, or nothing where a contract has only one."""
    return goal.partition("clause-")[2]


def function_at(text, place, module):
    """The names of the function whose head is the last before a place of a file's text, and of its type; and its first and last line."""
    heads = list(HEAD.finditer(text, 0, place))
    if not heads:
        return [], (1, text.count("\n") + 1)
    indent, name = heads[-1].groups()
    impls = list(IMPL.finditer(text, 0, place)) if indent else []
    names = [] if indent else ["::".join([*module, name])]
    if impls:
        names = ["::".join([*module, kind_of(impls[-1]), name]), "::".join([*module, impls[-1][3].split("::")[-1]])]
    end = text.find(f"\n{indent}}}", heads[-1].end())
    return names, (text.count("\n", 0, heads[-1].start()) + 1, text.count("\n", 0, end if end >= 0 else len(text)) + 2)


def body_of(folder, edit):
    """What an edit changes in the crate's folder, before it is made. Of several functions, the first one that has a line of the edit."""
    path, pairs, _ = fields_of(edit)
    text, found = (folder / path).read_text(), {}
    words = pathlib.Path(path).with_suffix("").parts[1:]
    module = [] if words in (("lib",), ("main",)) else [it for it in words if it != "mod"]
    for old, new in pairs:
        place = text.index(old)
        found[text.count("\n", 0, place) + 1] = function_at(text, place + len(old), module)
        text = text.replace(old, new)
    inside = [it for line, it in found.items() if it[1][0] <= line <= it[1][1]]
    names, span = (inside or list(found.values()))[0]
    answers = folder / "proofs" / "/".join(names[0].split("::") if names else []) / "Answers.antt"
    goals = re.findall(r"(?m)^(?:pub )?(\S+) : goal\.", answers.read_text()) if answers.is_file() else []
    return Body(path, frozenset(found), (*names, "::".join(module)), span, frozenset(map(clause_of, goals)))
