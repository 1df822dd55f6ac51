"""Whether `edits/try` takes answers of the prover for what they are. `SIDE_BY_SIDE` and `UNKNOWN` were recorded, and are cut to the lines
that it reads; `UNREAD` has the form of such ones."""
import pathlib
import tempfile
import types
import unittest.mock

from edits import TOP, Body, Edit, body_of
from prover import judged

CORE = "writer_core::WriterCore"
POLL = Body("src/writer_core.rt", frozenset({75}), (f"{CORE}::poll", CORE, "writer_core"), (64, 76), frozenset({"seen"}))
END_WRITE = Body("src/writer_core.rt", frozenset({175}), (f"{CORE}::end_write", CORE, "writer_core"), (167, 177), frozenset())
WRITE_AGAIN = Body("src/writer_core.rt", frozenset({26}), ("writer_core::write_again", "writer_core"), (23, 31), frozenset())

# Three edits at once: `poll` answers as before, but its proof names a goal that it no longer has; `end_write` is wrong; `write_again`
# compares the other way round, and is proved.
SIDE_BY_SIDE = """\
./proofs/writer_core/WriterCore/poll/Answers.antt:4:27: error: `returns-clause-seen`: `goal.returns-clause-seen`: module `Rattle.cacache_polled.proofs.writer_core.WriterCore.poll.Goals`
  has no `returns-clause-seen` that can be named from here
fn cacache_polled::writer_core::write_again: proved
note: src/writer_core.rt:167:5: it is not proved that what the function ensures holds when it returns (`returns-in-Busy-Write-clause-desk`)
fn cacache_polled::writer_core::WriterCore::end_write: no proof: expected answers in ./proofs/writer_core/WriterCore/end_write/Answers.antt; `search` did not prove `returns-in-Busy-Write-clause-desk`
fn cacache_polled::writer_core::WriterCore::poll_close: proved
fn cacache_polled::writer_core::WriterCore::poll_flush: proved
fn cacache_polled::writer_core::WriterCore::write_idle: proved
fn cacache_polled::writer_core::WriterCore::poll_write: proved
note: src/writer_core.rt:64:5: it is not proved that what the function ensures holds when it returns (`returns-in-Write-clause-seen`)
note: src/writer_core.rt:64:5: it is not proved that what the function ensures holds when it returns (`returns-in-Flush-clause-seen`)
note: src/writer_core.rt:64:5: it is not proved that what the function ensures holds when it returns (`returns-in-Close-clause-seen`)
fn cacache_polled::writer_core::WriterCore::poll: not proved
only=7 proved=5
"""

# Three edits of which the prover couldn't read the first two, and an edit of a function that it doesn't know.
UNREAD = """\
src/writer_core.rt:75:28: error[unknown-name]: cannot find value `no_such_poll` in this scope
src/writer_core.rt:171:27: error[unknown-method]: no function or constant named `shared` found for struct `Bytes`: help: it has only `new`
"""
UNKNOWN = """\
rattle: error: `cacache_polled` has no function `kinds::ProbeDrop::drop`: help: write the name that a check prints after `fn`, or the end of it
"""

PLAIN = Body("src/m.rt", frozenset({7}), ("m::f", "m"), (5, 9), frozenset())
SHOWN = PLAIN._replace(answered=frozenset({"told"}))
MISSED = "proofs/m/f/Answers.antt:2:1: error: `x` is not in scope"
OPEN = "note: src/m.rt:5:1: it is not proved that what the function ensures holds when it returns (`returns-clause-told`)"
FALSE = "; the facts known there allow values at which this goal is false"

# An answer with its status, the edit, whether that was made alone, and how `try` begins to tell of it.
ANSWERS = [
    (1, "fn c::m::f: not proved\nonly=1 proved=0", PLAIN, False, "refused"),
    (1, "src/m.rt:7:5: error: the function `f` is in a cycle of calls", PLAIN, True, "refused"),
    (0, "fn c::m::f: proved\nonly=1 proved=1", PLAIN, False, "NOT REFUSED"),
    (1, "src/m.rt:7:5: error: expected the end", PLAIN, False, "NOT READ"),
    (1, "fn c::m::f: could not tell\nonly=1 proved=0", PLAIN, True, "NO VERDICT"),
    (1, "fn c::m::f: could not tell\nonly=1 proved=0", PLAIN, False, "NO VERDICT"),
    (1, "fn c::m::g: could not tell\nfn c::m::f: not proved\nonly=2 proved=0", PLAIN, False, "refused"),
    (1, f"{MISSED}\nfn c::m::f: not proved\nonly=1 proved=0", PLAIN, False, "SAYS LITTLE"),
    (1, f"{MISSED}\n{OPEN}\nfn c::m::f: not proved\nonly=1 proved=0", SHOWN, False, "SAYS LITTLE"),
    (1, f"{MISSED}\n{OPEN}{FALSE}\nfn c::m::f: not proved\nonly=1 proved=0", SHOWN, False, "refused"),
    (1, f"{MISSED}\n{OPEN}\nfn c::m::f: not proved\nonly=1 proved=0", PLAIN, False, "refused"),
    (2, "rattle: no such file", PLAIN, False, "NOT TRIED"),
    (1, SIDE_BY_SIDE, POLL, False, "SAYS LITTLE"),
    (1, SIDE_BY_SIDE, END_WRITE, False, "refused"),
    (1, SIDE_BY_SIDE, WRITE_AGAIN, False, "NOT TRIED"),
]

# Impls with the names by which the prover knows their functions.
IMPLS = [("impl Drop for Plain", "fn drop(self)", "kinds::Plain::drop"),
         ("impl<T: Drop> Drop for Probe<T>", "fn drop(self)", "kinds::Probe::drop"),
         ("impl From<AllocError> for Error", "fn from(error: AllocError) -> Error", "kinds::ErrorFromAllocError::from"),
         ("impl<T: Drop> From<AllocFailed<T>> for Error", "fn from(error: AllocFailed<T>) -> Error", "kinds::ErrorFromAllocFailed::from"),
         ("impl fmt::Display for Text", "fn fmt(&self)", "kinds::TextDisplay::fmt"),
         ("impl<T: Drop> Probe<T>", "pub fn new() -> Probe<T>", "kinds::Probe::new")]


def wrong_answers():
    """The answers of the prover that are taken for something else."""
    for status, text, body, is_alone, wanted in ANSWERS:
        refused, said = judged(status, text.splitlines(), body, is_alone)
        if not said.startswith(wanted) or refused != (wanted == "refused"):
            yield f"edits/try: {text.splitlines()[0]}: {body.names[0]}: {said}, and not {wanted}"


def wrong_names():
    """The functions of impls for which it has another name than the prover, and a function that isn't the one which an edit changes."""
    with tempfile.TemporaryDirectory() as room:
        source = pathlib.Path(room) / "src/kinds.rt"
        source.parent.mkdir()
        heads = [f"{impl} {{\n    {head} {{\n        line_{at}();\n    }}\n}}\n" for at, (impl, head, _) in enumerate(IMPLS)]
        source.write_text("\n".join(heads))
        for at, (_, _, name) in enumerate(IMPLS):
            body = body_of(source.parent.parent, Edit("it", source, ("file: src/kinds.rt", f"old: line_{at}", "new: other")))
            if body.names[0] != name or body.span != (6 * at + 2, 6 * at + 4) or body.lines != {6 * at + 3}:
                yield f"edits/try: {name}: {body}"


def program(path):
    """A program of the tools as a module."""
    module = types.ModuleType(path)
    exec(compile((TOP / "tools" / path).read_text(), path, "exec"), module.__dict__)
    return module


def wrong_rounds():
    """Rounds of edits of which some can't be read, or have a function unknown to the prover, where the others don't get their verdicts."""
    trying = program("edits/try")
    probe = PLAIN._replace(path="src/kinds.rt", names=("kinds::ProbeDrop::drop", "kinds"))
    for what, first, bodies in [("unread", UNREAD, [POLL, END_WRITE, WRITE_AGAIN, probe]), ("unknown", UNKNOWN, [probe, END_WRITE, WRITE_AGAIN])]:
        faulty = bodies[:2] if what == "unread" else bodies[:1]
        asked = []

        def checked(tree, crate, names):
            asked.append(names)
            is_stopped = {it.names[0] for it in faulty} & set(names)
            return (1, (first if is_stopped else SIDE_BY_SIDE).splitlines())

        trying.checked = checked
        with tempfile.NamedTemporaryFile() as file:
            trials = [unittest.mock.Mock(file=pathlib.Path(file.name), body=it, leant=False) for it in bodies]
            left = trying.side_by_side(None, "cacache_polled", trials)
        refused = any(it.args[0] for it in trials[1].settle.call_args_list)
        if len(asked) != 2 or [it.body for it in left[:len(faulty)]] != faulty or what == "unknown" and not refused:
            yield f"edits/try: a round with edits that are {what} asks {asked}, and leaves {[it.body.names[0] for it in left]}"
