"""What `tools/api` and `tools/cited` share: the crates' sources, as `rt fmt` lays them out, and what they declare."""
import collections
import difflib
import functools
import itertools
import os
import pathlib
import re
import sys

sys.path.insert(0, str(pathlib.Path(__file__).resolve().parent.parent / "edits"))

from edits import TOP, begun, crates, ended

ROOTS = ["cacache", "cacache_keep"]  # the crates whose public paths users name
KINDS = "fn|struct|enum|trait|type|const|static|mod"
VISIBLE = r"(?:pub(?:\([^)]*\))? )?"
WRITTEN = ("API.md", "API-inner.md", "CLAUSES.md", "LAWS.md")  # the pages of docs that tools/api and tools/clauses write
DOCUMENTS = [*(TOP / it for it in ("README.md", "CONTRIBUTING.md", "CHANGELOG.md")), *sorted(TOP.glob("docs/**/*.md"))]
LAW = r"after_\w+|\w+_(?:laws|cases|rows|losses|results)"  # the name of a law, of which docs/LAWS.md has docs and clauses
QUALIFIERS = r"(?:(?:const|unsafe) )*"
SILENT = r"'\w+|(?:\w+ = )?(?:[A-Z]|Self)(?:::\w+)?"  # arguments of a type that say nothing: `'a`, `S`, `S::File`, `Temp = T`
SPEAKING = {"Option", "Poll", "Result", "Vec"}  # types that say too little without their arguments
OPENS, CLOSES = "([{<", ")]}>"

# An `impl` block: its trait (empty if it is of none), the crate and the name of its type, that type as it is written, and
# its file with the places where its body begins and ends.
Block = collections.namedtuple("Block", "trait crate name type file start end")
# A definition, or a field of a record: its line, the first sentence of the comment above it, the part of its file, whether it is a record,
# the fields of a record by their names, and what it names after arrows. Of a field that is all that its line names, and it has a text.
Definition = collections.namedtuple("Definition", "line comment part is_record fields cites text", defaults=[None])


@functools.cache
def tree():
    """The paths of all files and folders of the repository, without the folders that no commit has."""
    found = []
    for place, folders, names in os.walk(TOP):
        folders[:] = [it for it in folders if it not in ("out", "target", ".git", "__pycache__")]
        found += [os.path.relpath(os.path.join(place, it), TOP) for it in [*folders, *names]]
    return found


@functools.cache
def source(file):
    """The text of a file, with each arrow as one sign, so that a `>` always closes; empty if there is no such file."""
    return file.read_text().replace("->", "→") if file.is_file() else ""


@functools.cache
def files(crate):
    """The files of a crate's code."""
    return sorted((TOP / "crates" / crate / "src").rglob("*.rt"))


def file_of(crate, module):
    """The file of a module, which is given by the words of its path."""
    src = TOP / "crates" / crate / "src"
    return src.joinpath(*module).with_suffix(".rt") if module else src / "lib.rt"


def behind(text, at, opens=OPENS, closes=CLOSES):
    """The place behind the bracket that closes the one at this place."""
    depth = 0
    for place in range(at, len(text)):
        depth += (text[place] in opens) - (text[place] in closes)
        if depth == 0:
            return place + 1
    raise ValueError(f"never closed: {text[at:at + 40]}")


def split(text, opens=OPENS, closes=CLOSES):
    """The parts between the commas that stand in no bracket."""
    parts, depth = [""], 0
    for sign in text:
        depth += (sign in opens) - (sign in closes)
        if sign == "," and depth == 0:
            parts.append("")
        else:
            parts[-1] += sign
    return [part.strip() for part in parts if part.strip()]


def body(text, at):
    """From where to where the first block that opens behind this place goes, if it closes at a line's beginning."""
    return re.compile(r"(?ms)[^{]*\{(\}|.*?^\})").match(text, at).span(1)


def leaves(tree, before=()):
    """Each path that a `use` names, as its words, with the name that it gives it."""
    words, brace, inner = tree.partition("{")
    path, _, name = words.partition(" as ")
    path = [*before, *(word.strip() for word in path.split("::") if word.strip())]
    if brace:
        for part in split(inner.rpartition("}")[0]):
            yield from leaves(part, path)
    else:
        path = path[:-1] if path[-1] == "self" and len(path) > 1 else path
        yield path, name.strip() or path[-1]


@functools.cache
def uses(text, visible="pub "):
    """What a file re-exports, or with `VISIBLE` all that it imports: each path, with the name that it has here."""
    return [leaf for tree in re.findall(rf"(?m)^{visible}use ([^;]+);", text) for leaf in leaves(tree)]


def declared(crate, module, name):
    """The crate, the module and the declaration of an item; or the name of a crate of the kit; or None if it can't be followed."""
    text = source(file_of(crate, module))
    found = re.search(rf"(?m)^pub {QUALIFIERS}({KINDS}) ({re.escape(name)})\b", text)
    if found:
        return crate, module, found
    path = next((path for path, known in uses(text) if known == name), None)
    if path is None:
        return None
    head, *rest = path
    if re.search(rf"(?m)^{VISIBLE}mod {re.escape(head)};", text):
        rest = [*module, *path]
    elif head in ("crate", "self", "super"):
        rest = {"crate": [], "self": module, "super": module[:-1]}[head] + rest
    elif (TOP / "crates" / head).is_dir():
        crate = head
    elif head in (*crates()[crate], "std"):
        return head
    else:
        return None
    return declared(crate, rest[:-1], rest[-1]) if rest else None


def modules(path, crate, module):
    """Each module from this one on: its path, its file, and its items, each with the name that it has there."""
    text = source(file_of(crate, module))
    names = [known for _, known in uses(text)] + re.findall(rf"(?m)^pub {QUALIFIERS}(?:{KINDS}) (\w+)", text)
    items = [(name, declared(crate, module, name)) for name in sorted(names, key=lambda it: (it.lower(), it))]
    below = [(name, it) for name, it in items if isinstance(it, tuple) and it[2][1] == "mod"]
    yield "::".join(path), file_of(crate, module), [it for it in items if it not in below]
    for name, (place, inside, item) in below:
        yield from modules([*path, name], place, [*inside, item[2]])


@functools.cache
def public_modules():
    """The modules of the crates whose public paths users name."""
    return [it for root in ROOTS for it in modules([root], root, [])]


@functools.cache
def public_paths():
    """Each public path, with the crate, the module and the name of its item."""
    return [(f"{path}::{name}", (it[0], it[1], it[2][2])) for path, _, items in public_modules()
            for name, it in items if isinstance(it, tuple)]


def block_of(crate, file, found):
    """The block of a crate's file whose word `impl` was found there."""
    head = found[1].strip()
    trait, _, kind = (head[behind(head, 0):].strip() if head[0] == "<" else head).rpartition(" for ")
    named = re.match(r"[\w:]+", kind)  # nothing, such as `()`, has no name
    name = named[0].split("::")[-1] if named else kind.strip()
    paths = (path for path, known in uses(source(file), VISIBLE) if known == name)
    owner = next((path[0] for path in paths if (TOP / "crates" / path[0]).is_dir()), crate)
    return Block(trait.strip(), owner, name, kind.strip(), file, *body(source(file), found.end()))


@functools.cache
def blocks():
    """All `impl` blocks of the crates."""
    places = ((crate, file) for crate in crates() for file in files(crate))
    return [block_of(*place, it) for place in places for it in re.finditer(r"(?m)^impl\b([^{]*)", source(place[1]))]


def docs_of(text, at):
    """The lines of the docs above the declaration that begins at this place."""
    above = itertools.takewhile(lambda it: it.startswith(("///", "#[")), map(str.strip, reversed(text[:at].splitlines())))
    return [it[3:].removeprefix(" ").rstrip() for it in above if it[0] == "/"][::-1]


def short(text):
    """A type on one line, without lifetimes and without the arguments that say nothing."""
    text = re.sub(r"&'(?!static)\w+ ", "&", " ".join(text.split()))
    text = re.sub(r"\b(?:errors|std::result)::(?=Result\b)", "", text)
    found = re.search(r"(\w+)<", text)
    if not found:
        return text
    after = behind(text, found.end(1))
    kept = [short(it) for it in split(text[found.end():after - 1]) if not re.fullmatch(SILENT, it) or found[1] in SPEAKING and it[0] != "'"]
    return text[:found.end(1)] + (f"<{', '.join(kept)}>" if kept else "") + short(text[after:])


def head(text, at):
    """A function whose name ends at this place: its generics and its arguments, its result if it has one, and where its clauses begin."""
    generics = text[at + 1:behind(text, at) - 1] if text[at] == "<" else ""
    at = behind(text, at) if generics else at
    after = behind(text, at)
    rest = re.compile(r"(?s)\s*(?:→\s*(.*?)\s*(?=[{;]|\b(?:requires|ensures|where)\b))?(?:where\b.*?(?=[{;]|\b(?:requires|ensures)\b))?").match(text, after)
    return generics, text[at + 1:after - 1], rest[1], rest.end()


def signature(text, at, name):
    """A function on one line, whose name ends at this place: its name, its arguments and its result."""
    generics, listed, result, _ = head(text, at)
    pairs = (it.partition(":")[::2] for it in split(generics) if ":" in it)
    bounds = {generic: f"impl {short(bound.strip())}" for generic, bound in pairs}
    arguments = []
    for argument in split(listed):
        argument = "env" if re.match(r"env: &(?:'\w+ )?mut Env<", argument) else short(argument.removeprefix("mut "))
        for generic, bound in bounds.items():
            inner = f"({bound})" if "+" in bound else bound
            argument = re.sub(rf"&(mut )?{generic}\b(?!::)", lambda it: f"&{it[1] or ''}{inner}", argument)
            argument = re.sub(rf"\b{generic}\b(?!::)", bound, argument)
        arguments.append(argument)
    return f"{name}({', '.join(arguments)})" + (f" → {short(result)}" if result else "")


@functools.cache
def uncommented(text):
    """A text with spaces in the place of comments that are no docs."""
    return re.sub(r"(?<!/)//(?![/!])[^\n]*", lambda it: " " * len(it[0]), text)


def clauses(text, at):
    """The clauses of a function whose name ends at this place: of each its place, its words before the brace, and the rest on one line."""
    text = uncommented(text)
    *_, place = head(text, at)
    clause, found = re.compile(r"\s*((?:requires|ensures)\*?(?: \w+)?) (?=\{)"), []
    while start := clause.match(text, place):
        place = behind(text, start.end(), "{", "}")
        found.append((start.start(1), start[1], " ".join(text[start.end():place].split())))
    return found


def sentence(lines):
    """The first sentence of a comment's lines."""
    first = " ".join(lines[:lines.index("")] if "" in lines else lines)
    return re.match(r".*?[^.]\.(?=\s|$)|.*", first)[0]


def defined(text):
    """The definitions of a file, by their names. A line `-- ----` begins a part of the file."""
    found, comment, part, last, place = {}, [], 0, None, 0
    for line, words in enumerate(text.splitlines(), 1):
        plain, indent = words.strip(), len(words) - len(words.lstrip())
        if plain.startswith("-- "):
            part += plain.startswith("-- ----")
            comment.append(plain[3:])
            continue
        field = re.match(r"pub (\w+) :", plain)
        item = re.match(r"(?=abbrev |unfoldable |pub |record |data )(?:abbrev |unfoldable )?(?:pub )?(?:record |data )?(?!use |mod )([^\W\d][^\s:({]*)", plain)
        if last and last.is_record and field and indent == place + 2:
            text = [plain[field.end():].strip()]
            last.fields[field[1]] = Definition(line, sentence(comment), part, False, {}, re.findall(r"\b[A-Z]\w*", plain), text)
        elif item and indent in (0, 2, 4):
            last, place = Definition(line, sentence(comment), part, "record " in plain[:12], {}, []), indent
            found.setdefault(item[1], last)
        elif last and last.fields and plain and indent > place + 2:
            text.append(plain)
        elif last and not plain.startswith("module"):
            last.cites.extend(re.findall(r"→ ([A-Z]\w*)", plain))
        comment = []
    return found


@functools.cache
def definitions():
    """The definitions of each file of the crates, by the crate and the words of the file's path."""
    places = ((it, it.relative_to(TOP / "crates").with_suffix("").parts) for it in sorted(TOP.glob("crates/*/specs/**/*.antt")))
    return {(crate, *module): defined(file.read_text()) for file, (crate, _, *module) in places}


def renewed(page, text, tool):
    """Writes a page, or with `--check` only says how it differs from what it should say."""
    text = text.replace("→", "->")
    if "--check" not in sys.argv[1:]:
        page.write_text(text)
    there = page.read_text() if page.is_file() else ""
    moved = difflib.unified_diff(there.splitlines(), text.splitlines(), f"docs/{page.name}", f"what {tool} writes", n=0, lineterm="")
    return [line[:140] for line in moved]
