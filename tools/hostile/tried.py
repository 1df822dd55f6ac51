"""What `tools/hostile/each` tries: the words of the two programs, and the small cache that each run begins with."""
import collections
import pathlib

from standing import bucket_path, content_path, entry, integrity_of, line

BIG, OLD, NEW = b"beta " * 3000, b"old", b"new data " * 2000
LIVE = {"a": b"alpha", "twin": b"alpha", "b": BIG, "over": b"over", "torn": b"torn", "empty": b"", "linked": b"linked"}
GONE = {"gone": b"gone", "hurt": b"hurt", "dangling": b"dangling"}
FOREIGN = b"foreign"
# Lines that this port can't read and others may, by their keys: metadata that aren't whole, and an integrity of another kind.
ODD = {"foreign": entry("foreign", FOREIGN, metadata={"a": 0.5}), "other": entry("other", b"other").replace("sha256-", "xxh3-")}
# The words of `cacache-keep`.
UPKEEP = "collect compact prune repair tidy touch sweep plan plan-prune verify".split()


class Word:
    """A word with what it is given, the states that it may give to keys, and what it may change."""

    def __init__(self, words, data=b"", made=None, removes=(), looks=False, status=0, odd=True, own=None):
        self.words, self.data, self.looks, self.status, self.odd = words, data, looks, status, odd
        self.program = "cacache-keep" if words[0] in UPKEEP else "cacache"
        self.made = made or {}  # of a key what it has once the word is done
        self.removes = removes  # the contents that it may remove
        self.own = own or {}  # of a path that it may write the bytes that are there once it is done, None if any
        self.does = {"tidy": ["sweep", "prune", "compact", "collect"], "prune": ["prune", "collect"]}.get(words[0], words[:1])
        is_spared = words[0] == "collect" and "--grace" in words and "0" not in words
        self.loses = words[0] in UPKEEP[:6] and not is_spared  # whether what others put or remove meanwhile may be lost
        self.empties = "prune" in self.does or words[0] == "collect" and len(words) > 2  # removes folders that removals leave empty

    @property
    def name(self):
        return " ".join(self.words)


def words():
    """All that is tried."""
    hurt = [content_path(GONE["hurt"])]
    unused = [content_path(it) for it in (OLD, GONE["gone"])]
    for key, data in [("k", NEW), ("b", b"beta two"), ("a", LIVE["a"]), ("hurt", GONE["hurt"]), ("torn", b""), ("new", OLD)]:
        yield Word(["write", "c", key], data, {key: data}, own=put(data, key))
    yield Word(["store", "c", "k", "outside/kept"], made={"k": b"kept"}, own=put(b"kept", "k"))
    yield Word(["write-hash", "c", "sha256"], NEW, own=put(NEW))
    yield Word(["copy", "c", "b", "copied"], own={"copied": BIG})
    for word in (["read", "c", "b"], ["read", "c", "linked"], ["find", "c", "torn"], ["ls", "c"], ["read-hash", "c", integrity_of(BIG)],
                 ["exists", "c", integrity_of(OLD)]):
        yield Word(word, looks=True)
    for key in ("over", "twin"):
        yield Word(["remove", "c", key], made={key: "absent"})
    yield Word(["clear", "c"])
    # a collection and a repair are refused for the odd lines
    for status, word in (3, "verify"), (3, "verify --list"), (0, "plan"), (0, "plan-prune 1000 -"), (1, "collect"), (1, "repair"):
        yield Word([*word.split(), "c"], looks=True, status=status)
    yield Word(["touch", "b", "c"])
    yield Word(["collect", "--anyway", "c"], removes=[*unused, content_path(FOREIGN)])
    yield Word(["sweep", "c"])
    buried = {it: "absent" for it in ("hurt", "dangling")}
    yield Word(["repair", "--anyway", "c"], made=buried, removes=hurt)
    for word in (["compact"], ["compact", "--durable"]):
        yield Word([*word, "c"])
    # without odd lines, which refuse them
    dropped, oldest = ({it: "absent" for it in keys} for keys in ((*LIVE, "hurt", "dangling"), ("a", "b", "dangling", "hurt")))
    contents = [content_path(it) for it in (*LIVE.values(), *GONE.values(), OLD)]
    for made, removes, word in [
            (dropped, contents, "prune - 0"), (dropped, [], "prune --grace 1h --durable - 0"),
            (oldest, [*unused, *hurt, content_path(BIG)], "prune 1000 -"), ({}, unused, "collect"), ({}, [], "collect --grace 1h"),
            ({}, unused, "collect --grace 0 --durable"), ({}, unused[1:], "collect --keep roots"), (buried, hurt, "repair"),
            ({}, unused, "tidy"), (dropped, contents, "tidy --age 0")]:
        yield Word([*word.split(), "c"], made=made, removes=removes, odd=False)


def spots():
    """The folders that become links: the cache, those that lead to one content and to one bucket, and `tmp`."""
    yield "c"
    for path in (f"c/{content_path(OLD)}", f"c/{bucket_path('over')}", "c/tmp/notes"):
        yield from map(str, list(pathlib.PurePath(path).parents)[-3::-1])


def seconds():
    """What a second process does."""
    for key, data in [("b", b"beta three"), ("new", OLD), ("hurt", GONE["hurt"])]:
        yield Word(["write", "c", key], data, {key: data})
    for key in ("a", "b"):
        yield Word(["remove", "c", key], made={key: "absent"})
    for word in ("collect --anyway --grace 10", "collect --anyway", "compact", "repair --anyway", "touch b"):
        yield Word([*word.split(), "c"])


def put(data, key=None):
    """What a put of these bytes may write."""
    return {f"c/{content_path(data)}": data, **({f"c/{bucket_path(key)}": None} if key else {})}


def prepared(odd):
    """The tree that a run begins with: the cache `c`, with odd lines or without, and beside it what no word may touch."""
    tree, buckets = {"outside/kept": b"kept", "outside/linked": LIVE["linked"]}, collections.defaultdict(bytes)
    tree["roots"] = integrity_of(OLD).encode()
    for key, data in {"over": OLD, **{it: GONE[it] for it in GONE}}.items():
        buckets[key] += line(entry(key, data))
        tree[f"c/{content_path(data)}"] = data
    buckets["gone"] += line(entry("gone", None, 2))
    buckets["torn"] += line(entry("torn", b"before"))[:70]
    for key, data in LIVE.items():
        buckets[key] += line(entry(key, data, 3)) + b"\n" * (key == "b")
        tree[f"c/{content_path(data)}"] = data
    for key, text in ODD.items() if odd else ():
        buckets[key] += line(text)
    if odd:
        tree[f"c/{content_path(FOREIGN)}"] = FOREIGN
    tree[f"c/{content_path(GONE['hurt'])}"] = b"hurT"
    del tree[f"c/{content_path(GONE['dangling'])}"]
    tree.update({f"c/{bucket_path(key)}": data for key, data in buckets.items()})
    tree.update({"c/tmp/.tmp00000000000000aa": b"left", "c/tmp/notes": b"notes", "c/content-v2/strange": b"", "c/own": b""})
    files = {path: (0o644, data) for path, data in tree.items()}
    files[f"c/{content_path(LIVE['linked'])}"] = "../../../../../outside/linked"
    del files["c/own"]  # `clear` ends at a file
    folders = {str(it) for path in files for it in pathlib.PurePath(path).parents} - {"."}
    return {**{it: "folder" for it in folders}, **files}
