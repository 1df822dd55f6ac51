"""What stands in a folder, and what a cache there says by its format (docs/FORMATS.md), read and written without the product, for
`tools/hostile/each`."""
import base64
import hashlib
import json
import os
import pathlib
import re
from functools import cache

NUMBER = range(0, 2**64)  # what a time and a size may be
READABLE = r"sha(?:1|256|384|512)-[A-Za-z0-9+/]{4,}={0,2}"  # the text of an integrity of one hash that this port reads


@cache
def content_path(data, algorithm="sha256"):
    """Where a content lies below the cache."""
    digest = hashlib.new(algorithm, data).hexdigest()
    return f"content-v2/{algorithm}/{digest[:2]}/{digest[2:4]}/{digest[4:]}"


def integrity_of(data):
    """The text of a content's integrity."""
    return "sha256-" + base64.b64encode(hashlib.sha256(data).digest()).decode()


@cache
def bucket_path(key):
    """Where the lines of a key lie below the cache."""
    digest = hashlib.sha1(key.encode()).hexdigest()
    return f"index-v5/{digest[:2]}/{digest[2:4]}/{digest[4:]}"


def line(text):
    """The line of an entry text, its line feed first."""
    return f"\n{hashlib.sha256(text.encode()).hexdigest()}\t{text}".encode()


def entry(key, data, time=1, metadata=None):
    """The text of an entry; without data it is a tombstone."""
    fields = {"key": key, "integrity": data if data is None else integrity_of(data), "time": time, "size": len(data or b""),
              "metadata": metadata, "raw_metadata": None}
    return json.dumps(fields, separators=(",", ":"))


def whole(value):
    """Whether each number in a JSON value is whole and fits."""
    if isinstance(value, (list, dict)):
        return all(whole(it) for it in (value.values() if isinstance(value, dict) else value))
    return not isinstance(value, float) and (not isinstance(value, int) or -(2**63) <= value < 2**64)


@cache
def read_entry(piece):
    """The entry of a bucket's piece, None where it is none."""
    try:
        digest, text = piece.removesuffix(b"\r").decode().split("\t")
        found = json.loads(text, parse_constant=float)
    except ValueError:
        return None
    fits = digest == hashlib.sha256(text.encode()).hexdigest() and isinstance(found, dict) and "metadata" in found \
        and isinstance(found.get("key"), str) and isinstance(found.get("integrity"), (str, type(None))) \
        and all(isinstance(found.get(it), int) and found[it] in NUMBER for it in ("time", "size")) and whole(found["metadata"])
    return found if fits else None


def stands(root):
    """All that stands below a folder: each path with `folder`, the text of a link, or a file's mode and bytes."""
    found, folders = {}, [""]
    for folder in folders:
        for it in os.scandir(f"{root}/{folder}"):
            path = folder + it.name
            if it.is_symlink():
                found[path] = os.readlink(it.path)
            elif it.is_dir():
                found[path] = "folder"
                folders.append(f"{path}/")
            else:
                found[path] = it.stat().st_mode & 0o7777, pathlib.Path(it.path).read_bytes()
    return found


def lay(root, tree, now):
    """Has this tree stand in a folder, where the other one stands now."""
    for path in sorted((it for it in now if now[it] != tree.get(it)), reverse=True):
        (os.rmdir if now[path] == "folder" else os.unlink)(f"{root}/{path}")
    for path in sorted(it for it in tree if now.get(it) != tree[it]):
        at, what = pathlib.Path(root, path), tree[path]
        if what == "folder":
            at.mkdir()
        elif isinstance(what, str):
            at.symlink_to(what)
        else:
            at.write_bytes(what[1])
            at.chmod(what[0])


class Cache:
    """What a cache says that is the folder `cache` of a tree."""

    def __init__(self, tree, cache):
        self.tree, self.above = tree, pathlib.PurePath(cache)
        self.buckets = {path: what[1] for path, what in tree.items() if path.startswith(f"{cache}/index-v5/") and isinstance(what, tuple)}
        self.entries = {}
        for bytes_of in self.buckets.values():
            for found in filter(None, map(read_entry, bytes_of.split(b"\n"))):
                if found["integrity"] is None or re.fullmatch(READABLE, found["integrity"]):
                    self.entries[found["key"]] = found
        self.keys = sorted(key for key, found in self.entries.items() if found["integrity"])

    def content(self, path):
        """The bytes of the file that a path below the tree leads to; None where it leads to none."""
        what = self.tree.get(path)
        if isinstance(what, str) and what != "folder":
            what = self.tree.get(os.path.normpath(os.path.join(os.path.dirname(path), what)))
        return what[1] if isinstance(what, tuple) else None

    def value(self, key):
        """The bytes of a key; else `absent`, or `missing` or `damaged` for its content."""
        found = self.entries.get(key)
        if not found or not found["integrity"]:
            return "absent"
        algorithm, _, digest = found["integrity"].partition("-")
        digest = base64.b64decode(digest).hex()
        data = self.content(str(self.above / "content-v2" / algorithm / digest[:2] / digest[2:4] / digest[4:]))
        if data is None:
            return "missing"
        return data if hashlib.new(algorithm, data).hexdigest() == digest else "damaged"
