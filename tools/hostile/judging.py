"""What is wrong with a run of `tools/hostile/each` in which a call went wrong: each finding is a text, and its details."""
import pathlib
import re

from standing import Cache, bucket_path, content_path, line
from tried import FOREIGN, GONE, LIVE, ODD

KILLS = ("before", "half", "after")
MESSAGE = re.compile(r"Failed to |Error |Bucket |Key |Entry not found for key |Integrity check failed\.\n"
                     r"|(?:out of memory|(?:out|in)put failed)\n")


def at_or_below(path, above):
    """Whether a path is another one or lies below it."""
    return path == above or path.startswith(f"{above}/")


def taken_for_gone(ran, how):
    """The path of which a run was told falsely that nothing is there."""
    return ran.call.removeprefix("statx ").rstrip("/") if how == "errno ENOENT" and ran.call.startswith("statx ") else None


def excused(gone):
    """The keys whose lines or content may be taken for gone, where nothing is said to be at a path."""
    contents = {**LIVE, **GONE, "foreign": FOREIGN}
    places = {key: (f"c/{bucket_path(key)}", f"c/{content_path(data)}") for key, data in contents.items()}
    return {key: contents[key] for key, paths in places.items() if gone and any(at_or_below(it, gone) for it in paths)}


def values(word, before, ran, done, gone):
    """What is wrong with the keys."""
    was, now = Cache(before, "c"), Cache(ran.tree, "c")
    for key in sorted({*was.entries, *now.entries, *word.made}):
        may = {word.made.get(key, was.value(key))}
        if not done or gone and "1000" in word.words or key in excused(gone):  # what is gone has no bytes
            may.add(was.value(key))
        if word.words[0] == "clear":
            may = {"absent"} if done else {was.value(key), "absent", "missing"}
        if key in excused(gone):
            may |= {"absent", "missing"}
        if word.words[0] == "repair" and key == "hurt" or "prune" in word.does and key in word.made:
            may |= set() if done else {"missing"}
        if word.words[0] in ("write", "store") and ran.call.startswith("rename "):
            may.add(was.value(key))  # a commit goes on where its file can't be moved and something stands there, as in the Rust crate
        if now.value(key) not in may:
            yield f"a key has {now.value(key) if isinstance(now.value(key), str) else 'other bytes than it may'}", key


def files(word, before, ran, how, gone):
    """What is wrong with the files, links and folders."""
    kind, tree = word.words[0], ran.tree
    killed = how in KILLS
    if word.looks:
        # without the index one that was refused for odd lines does its work
        yield from [("a word that only looks changed something", "")] if tree != before and not (gone and word.status == 1) else []
        return
    taken = [content_path(it) for it in excused(gone).values()] if "collect" in word.does else []
    emptied = {f"c/{it}" for path in [*word.removes, *taken] for it in list(pathlib.PurePath(path).parents)[:2]} if word.empties else ()
    for path in sorted(before):
        what, now = before[path], tree.get(path)
        removed = now is None and (
            kind == "clear" and at_or_below(path, "c") or "sweep" in word.does and path.startswith("c/tmp/.tmp")
            or "prune" in word.does and path in [f"c/{bucket_path(it)}" for it in word.made]  # without room for a tombstone
            or path.startswith("c/content-v2/") and path[2:] in [*word.removes, *taken])
        if what == now or path in word.own or removed or path in emptied and not any(it.startswith(f"{path}/") for it in tree):
            continue
        if path.startswith("c/index-v5/") and isinstance(now, tuple):
            if "compact" in word.does or kind in ("remove", "repair", "prune", "touch") and now[1].startswith(what[1]):
                if now[0] != what[0]:
                    yield "a bucket has another mode", f"{now[0]:o}, not {what[0]:o}"
                continue
        yield f"{'removed' if now is None else 'changed'}: something of {'/'.join(path.split('/')[:2])}", path
    new = [it for it in tree if it not in before and tree[it] != "folder" and it not in word.own]
    tmp = "" if kind == "copy" else "c/tmp/"
    for path in sorted(new):
        if re.fullmatch(rf"{tmp}\.tmp[0-9a-f]{{16}}", path) and (killed or ran.call.startswith(f"unlink {tmp}.tmp")):
            continue
        yield "a file is left", path


def lines(word, ran, gone):
    """What is wrong with the lines that this port can't read, and their contents."""
    is_other = gone and at_or_below(f"c/{bucket_path('other')}", gone)
    if word.odd and word.words[0] != "clear" and "foreign" not in excused(gone) and not is_other:
        for key, text in ODD.items():
            if line(text) not in ran.tree.get(f"c/{bucket_path(key)}", (0, b""))[1]:
                yield "a line that can't be read is gone", key
        if "--anyway" not in word.words and f"c/{content_path(FOREIGN)}" not in ran.tree:
            yield "the content of a line that can't be read is gone", ""


def fates(out):
    """How many contents a collection kept, and how many it dropped or left."""
    counts = {name: int(count) for name, count in re.findall(rb"(?m)^(kept|dropped|young|gone) (\d+)$", out)}
    return counts.get(b"kept"), sum(counts.values())


def ended(word, plain, ran, how, gone):
    """What is wrong with how a run ended, beside one in which nothing fails."""
    shown = f"{ran.status}: {ran.out[-60:]!r}, {ran.err[:60]!r}"
    if how in KILLS:
        return [] if ran.status == -9 else [("a killed run goes on", shown)]
    if ran.status == word.status or gone and ran.status in (0, 3):
        texts = [("status 0 with a message", shown)] if ran.err and ran.status == 0 else []
        is_no = word.words[0] in ("exists", "verify") and ran.call.startswith("statx c/content-v2/")  # so a failed question is answered
        is_young = "--grace" in word.words and fates(ran.out) == fates(plain.out)  # a content that gives no age stays
        # on a full disk a bucket is removed, and no line of it is left to compact
        outs = [re.sub(rb"buckets \d+\nbytes \d+\n", b"", it) if "compact" in word.does[1:] else it for it in (ran.out, plain.out)]
        fits = gone or is_no or is_young or outs[0] == outs[1]
        return texts + ([] if fits else [("done with another output", shown)])
    if ran.status != 1:
        return [("another status", shown)]
    # the output or the errors themselves fail, or the output names what was left
    mute = ran.call == "write stream" or "prune" in word.does and b"left " in ran.out
    told = [] if mute or MESSAGE.match(ran.err) and ran.err.endswith("\n") else [("failed without a message", shown)]
    whole = {*plain.out.splitlines()} if word.words[0] == "ls" else set()
    more = "prune" not in word.does and not plain.out.startswith(ran.out) and not {*ran.out.splitlines()} <= whole
    return told + ([("failed with another output", shown)] if more else [])


def judged(word, before, plain, ran, how, gone):
    """What is wrong with a run."""
    done = ran.status == word.status
    yield from ended(word, plain, ran, how, gone)
    yield from values(word, before, ran, done, gone)
    yield from files(word, before, ran, how, gone)
    yield from lines(word, ran, gone)
    if done and word.words[0] == "clear" and not gone:
        yield from [("a clear left something", "")] if any(it.startswith("c/") for it in ran.tree) else []
    if done and "sweep" in word.does and not gone:
        yield from [("a sweep left a temporary file", "")] if "c/tmp/.tmp00000000000000aa" in ran.tree else []
    for path, data in word.own.items() if done and not ran.call.startswith("rename ") else ():
        if data is not None and Cache(ran.tree, "c").content(path) != data:
            yield "a file has other bytes than it may", path
    if done and word.words[0] == "touch" and not gone and Cache(ran.tree, "c").entries["b"]["time"] <= 3:
        yield "a touched key has its old time", ""


def met_by(word, second, before, orders, ran, told):
    """What is worth a look where a second word was made right before a call, in capitals if it is wrong. A key may have what it has where
    either word is made first. A key that one of them puts or removes may be lost if the other says so."""
    found = [] if told.endswith("\n0\n") or told == "0\n" else [("THE SECOND WORD FAILS", told[-80:])]
    if ran.status not in (word.status, orders[1].status):
        found.append(("fails" if ran.status == 1 and MESSAGE.match(ran.err) else "ENDS WRONG", f"{ran.status}: {ran.err[:70]!r}"))
    was, now, *may = (Cache(it, "c") for it in (before, ran.tree, *(it.tree for it in orders)))
    for key in sorted({*now.entries, *may[0].entries, *may[1].entries}):
        value = now.value(key)
        halfway = [was.value(key), *["missing"] * (key in word.made)] if ran.status != word.status else []
        if value in [it.value(key) for it in may] + halfway:
            continue
        loses = word.loses and key in second.made or second.loses and key in word.made or word.words[0] == "clear"
        is_lost = loses and value in ("absent", "missing", was.value(key))
        found.append(("a key is lost, or is there again" if is_lost else "A KEY HAS WHAT IT MAY NOT", f"{key}: {value[:20]!r}"))
    gone = [it for it in before if before[it] != "folder" and it not in ran.tree and all(it in last.tree for last in orders)]
    left = [it for it in ran.tree if ran.tree[it] != "folder" and it not in before and not any(it in last.tree for last in orders)]
    return found + [("A FILE IS LEFT", it) for it in left] + [("SOMETHING IS REMOVED", it) for it in gone if not found]
