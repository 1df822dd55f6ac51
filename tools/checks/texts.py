"""The crates that are kept as text, since nothing proves them: where their sources lie, and what they list. And the wrong bodies of
fuzz/faults.txt, which the random tests must find."""
import collections
import pathlib
import re

TOP = pathlib.Path(__file__).resolve().parent.parent.parent
TEXTS = {"bench": TOP / "tools/speed/bench", "fuzz": TOP / "fuzz/src"}
FORM = r"rows: (.*)\nfile: (.*)\nold: (.*)\nnew: (.*)"

# A wrong body: the file of rows that must find it, the file that has it, and a text there with what it becomes.
Fault = collections.namedtuple("Fault", "rows file old new")


def texts(crate):
    """The sources of a crate of text."""
    return sorted(TEXTS[crate].rglob("*.rt.txt"))


def listed(crate):
    """What a crate of text lists, by the line `NAME ..: CRATES` of its listed.txt."""
    return re.search(rf"(?m)^{crate}\b[^:\n]*:(.*)$", (TEXTS[crate] / "listed.txt").read_text())[1].split()


def faults():
    """All of them."""
    return [Fault(*it) for it in re.findall(FORM, (TOP / "fuzz/faults.txt").read_text())]


def unfit():
    """Those that can't be planted, each with why."""
    for it in faults():
        count = (TOP / it.file).read_text().count(it.old) if (TOP / it.file).is_file() else 0
        if count != 1 or it.old == it.new or not (TOP / "fuzz" / it.rows).is_file():
            yield f"fuzz/faults.txt: in {it.file} stands {count} times: {it.old}"

