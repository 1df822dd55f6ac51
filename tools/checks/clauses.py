"""Whether what documents say of clauses is so, by the pages CLAUSES and LAWS, which `tools/clauses` writes.

It is written as `function`, `function`: `clause`, `clause`. Each of these functions must have each of the clauses, or a field of a record
that one of its clauses states. `A::{b, c}` stands for `A::b` and `A::c`, and `b` for each `A::b`.
"""
import collections
import functools
import re

from .sources import QUALIFIERS, TOP, VISIBLE, WRITTEN, blocks, body, crates, file_of, files, public_modules, public_paths, source

SPAN = r"`([^`]+)`"
SPANS = r"`[^`]+`(?:,?\s+(?:and\s+)?`[^`]+`)*"
CITED = re.compile(rf"(?<![\w`])({SPANS}):\s+({SPANS.replace('[^`]', '[a-z_]')})")


@functools.cache
def known():
    """The clauses of each function, law and record that the pages have, by its name without what is before it."""
    found, states, heads = collections.defaultdict(set), collections.defaultdict(set), []
    for line in "\n".join((TOP / "docs" / it).read_text() for it in WRITTEN[2:]).splitlines():
        if line.startswith(("- [", "### [")):
            heads = re.findall(SPAN, line)
        elif names := re.match(r" *- ((?:`\w[\w ]*`(?:, )?)+): ", line):
            for head in heads:
                fields = re.search(r"fields ((?:`\w+`(?:, )?)*)", line)
                found[head].update(re.findall(r"(\w+)`", names[1] + (fields[1] if fields else "")))
                states[head].update(re.findall(r"\(`(\w+)`\)", line))
    for head, records in list(states.items()):
        found[head].update(*(found[it] for it in records if it in found))
    by_end = collections.defaultdict(set)
    for head, clauses in found.items():
        for end in (head, head.split("::")[-1], re.sub(r" as \w+::", "::", head)):
            by_end[end] |= clauses
    return by_end


def spelled(code):
    """The paths that a name with braces stands for: `A::{b, c}` for `A::b` and `A::c`."""
    found = re.fullmatch(r"(.*)\{(.*)\}(.*)", code)
    return [f"{found[1]}{it.strip()}{found[3]}" for it in found[2].split(",")] if found else [code]


def wrong_clauses(text, strict):
    """Each wrong citation of a text: its place, and what is wrong. If that isn't strict, names of no function are passed over."""
    for it in CITED.finditer(text):
        for name in (path for code in re.findall(SPAN, it[1]) for path in spelled(" ".join(code.split()))):
            if name not in known():
                yield from [(it.start(), f"no function {name}")] if strict else []
                continue
            yield from ((it.start(), f"{name} has no clause {clause}") for clause in re.findall(SPAN, it[2]) if clause not in known()[name])


@functools.cache
def members():
    """Each type and trait, and each function and variant with what it is in: a crate, a file, a type or a trait."""
    found = set()
    for crate, file in ((crate, file) for crate in crates() for file in files(crate)):
        text = source(file)
        found |= set(re.findall(rf"(?m)^{VISIBLE}(?:enum|struct|trait) (\w+)", text))
        found |= {f"{it}::{name}" for name in re.findall(rf"(?m)^{VISIBLE}{QUALIFIERS}fn (\w+)", text) for it in (crate, file.stem)}
        for it in re.finditer(rf"(?m)^{VISIBLE}(enum|trait) (\w+)[^;]*?\{{", text):
            names = r"^    ([A-Z]\w*)" if it[1] == "enum" else r"\bfn (\w+)"
            found |= {f"{it[2]}::{name}" for name in re.findall(f"(?m){names}", text[slice(*body(text, it.end(2)))])}
    for it in blocks():
        trait = re.match(r"(?:\w+::)*(\w*)", it.trait)[1]
        names = re.findall(r"\bfn (\w+)", source(it.file)[it.start:it.end])
        found |= {f"{owner}::{name}" for name in names for owner in (it.name, trait, it.crate)}
    return found


@functools.cache
def is_there(path):
    """Whether a path of two words or more is that of a function, a variant, a module or a public item."""
    *above, name = path.split("::")
    renamed = {f"{item[2]}::{name}" for known_as, item in public_paths() if known_as.endswith(f"::{above[-1]}")}
    public = [*(it for it, _ in public_paths()), *(it for it, *_ in public_modules())]
    return bool(({f"{above[-1]}::{name}", name if name[0].isupper() else path} | renamed) & members() or any(f"::{it}".endswith(f"::{path}") for it in public)
                or above[0] in crates() and file_of(above[0], [*above[1:], name]).is_file())
