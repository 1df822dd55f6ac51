"""How `try` asks the prover, and what it makes of the answer."""
import os
import pathlib
import re
import shutil
import subprocess
import sys

from edits import clause_of, crates

KIT = pathlib.Path(shutil.which("rt")).resolve().parent.parent
JOBS = os.environ.get("EDITS_JOBS", "2")  # how many functions the prover checks side by side
LIMIT = 3600  # seconds for one check

# What a proof file says that names what an edit took away: no contract refused the edit then.
NAMES = re.compile(r"(\./)?proofs/.*(has no field|is not in scope|has no `|was not admitted)")
FALSE = "allow values at which this goal is false"


def root_of(tree, crate):
    """The root file of a crate."""
    return "src/main.rt" if (tree / "crates" / crate / "src/main.rt").exists() else "src/lib.rt"


def over_libraries(tree, crate):
    """The words that name the libraries below a crate: those of the tree, and the kit's."""
    listed = crates()
    below, todo = [], list(listed[crate])
    while todo:
        name = todo.pop()
        if name in listed and name not in below:
            below.append(name)
            todo += listed[name]

    def place(name):
        return tree / "crates" / name / "out/rlib" if name in listed else KIT / "rlibs"

    words = [word for name in ["std", *listed[crate]] for word in ("--extern", f"{name}={place(name)}/{name}.rlib")]
    words += [word for folder in [KIT / "rlibs", *map(place, below)] for word in ("-L", f"dependency={folder}")]
    words += ["--antt-project", KIT / "rattle/logic/antt-project.json", "--logic-built", KIT / "logic_built"]
    return [*words, "--links", f"{crate}=", "--jobs", JOBS]


def prover(tree, crate, mode, *words):
    """The prover's answer on a crate of a tree, over the libraries that stand built: its status and its lines."""
    command = [KIT / "bin/rattle", mode, "--crate-name", crate, root_of(tree, crate), *over_libraries(tree, crate), *words]
    how = {"stdin": subprocess.DEVNULL, "stdout": subprocess.PIPE, "stderr": subprocess.STDOUT, "text": True, "errors": "replace"}
    try:
        ran = subprocess.run(command, cwd=tree / "crates" / crate, timeout=LIMIT, **how)
    except subprocess.TimeoutExpired:
        return None, ["no answer in time"]
    lines = ran.stdout.rstrip("\n").split("\n")
    return ran.returncode, [it for it in lines if not it.startswith("so far: ")]


def checked(tree, crate, names):
    """The prover's answer on these functions, types or modules of a crate, over what earlier checks of this run kept."""
    return prover(tree, crate, "check", "--incremental", "out/incremental", *(word for name in names for word in ("--only", name)))


def libraries_below(tree, crate):
    """Builds the libraries that a crate lists."""
    for name in crates()[crate]:
        if name in crates():
            library(tree, name)


def library(tree, crate):
    """Builds the library of a crate, after those below it."""
    made = tree / "crates" / crate / "out/rlib" / f"{crate}.rlib"
    if made.exists():
        return
    libraries_below(tree, crate)
    made.parent.mkdir(parents=True, exist_ok=True)
    status, lines = prover(tree, crate, "build", "--statements", "--empty-contracts", "-o", str(made))
    if status != 0 or not made.exists():
        sys.exit(f"{crate}: its library can't be built: {lines[-1]}")


def unknown(lines):
    """The name of which the prover knows no function, if it says so."""
    said = (re.search(r"has no function `([^`]*)`", it) for it in lines)
    return next((it[1] for it in said if it), None)


def unread(lines, path, only=None):
    """The first line that says that a text couldn't be read: then no contract was tried. With `only`, of an error in these lines."""
    for line in lines:
        at = re.match(r"(?:\./)?(\S+?):(\d+):\d+: error(?:\[[\w-]+\])?: (?:(`[^`]*`): )?(.*)", line)
        if not at or not (at[1] == path and int(at[2]) in only if only else at[1].startswith((path, "src/", "specs/"))):
            continue
        said = re.sub(r"`[^`]*`", "", at[4])
        if not at[3] or re.search(r"is not in scope|has no field|is no name|operand is missing|expected the end|cannot continue", said):
            return line
    return None


def has_verdict(lines):
    """Whether the prover came to the proofs at all."""
    return any(re.match(r"only=\d+ proved=\d+|logic=not-proved", it) for it in lines)


def fallen(lines, function):
    """What the prover says of a function whose own goals aren't all proved; None if they are, or if that may only rest on another one."""
    own = "(?!; it calls)" if function else ""
    said = (re.match(rf"fn \w+::(\S+): (?:not proved{own}|no proof: .*`search` did not prove)", it) for it in lines)
    return next((it.string for it in said if it and function in (None, it[1])), None)


def leans(lines, function):
    """Whether the prover says of a function that it calls another one that isn't proved."""
    return any(re.match(rf"fn \w+::{re.escape(function)}: .*it calls", it) for it in lines)


def told_of(lines, body, is_alone):
    """The errors and notes on an edit: all if it was made alone, and else those on its function and of that function's proof files."""
    own, (first, last) = f"proofs/{body.names[0].replace('::', '/')}/", body.span
    told = [it for it in lines if ": error" in it or it.startswith("note: ") and "not proved" in it]
    said = (re.match(r"(?:note: )?(?:\./)?(\S+?):(\d+):\d+:", it) for it in told)
    return [it.string for it in said if it and (is_alone or it[1].startswith(own) or it[1] == body.path and first <= int(it[2]) <= last)]


def says_little(told, body):
    """The line by which a proof file names what an edit took away, if nothing else that was told speaks against the edit. A goal of a
    clause that the written answers show is open without them, so it counts only if the prover found values at which it is false."""
    missed = [it for it in told if NAMES.match(it)]
    for line in told:
        goal = re.search(r"it is not proved .*\(`([^`]*)`\)", line)
        if line not in missed and not (goal and FALSE not in line and clause_of(goal[1]) in body.answered):
            return None
    return missed[0] if missed else None


def judged(status, lines, body, is_alone=True):
    """Whether the answer on an edit is the prover's refusal, and what to say. If it wasn't made alone, the answer is about its function."""
    lines = "\n".join(lines).replace("\n  ", " ").split("\n")  # two spaces begin a line that goes on with the one above
    function = None if is_alone else body.names[0]
    if status == 0:
        return False, "NOT REFUSED"
    ring = next((it for it in lines if "is in a cycle of calls" in it), None)
    if ring and is_alone:
        return True, f"refused: the function isn't proved to return: {ring[:120]}"
    if unread(lines, body.path):
        return False, f"NOT READ: {unread(lines, body.path)[:160]}"
    if status != 1 or not has_verdict(lines):
        return False, f"NOT TRIED: {next((it for it in lines if 'error' in it), lines[-1])[:160]}"
    about = r"\S+" if is_alone else rf"\w+::{re.escape(function)}"
    if any(re.match(f"fn {about}: could not tell", it) for it in lines):
        return False, "NO VERDICT: the prover could not tell"
    fell = fallen(lines, function)
    if not fell:
        return False, f"NOT TRIED: no goal is refused: {next((it for it in lines if it[:3] == 'fn ' and ': proved' not in it), '')[:160]}"
    told = told_of(lines, body, is_alone)
    little = says_little(told, body)
    if ": not proved" in fell and little:
        return False, f"SAYS LITTLE: only a proof file names what the edit took away: {little[:160]}"
    return True, f"refused: {next((it for it in told if not NAMES.match(it)), fell)[:140] if is_alone else fell[:140]}"
