"""Tables of counts that `tools/words` and `tools/size` keep, so that none rises unseen."""


def table(counts, head, first, other):
    """Counts as lines: what each row is about, in a column of the first width, and its numbers."""
    rows = [(head, *next(iter(counts.values()))._fields), *((name, *it) for name, it in counts.items())]
    return "".join(f"{name:{first}}" + "".join(f"{it:>{other}}" for it in row) + "\n" for name, *row in rows)


def risen(file, counts, names):
    """Each count, of those with these names, that is above the one that a file keeps, if only 0: what has it, and what there is to say."""
    head, *rows = [it.split() for it in file.read_text().splitlines()] if file.is_file() else [[]]
    kept = {what: dict(zip(head[1:], map(int, row))) for what, *row in rows}
    for what, now in counts.items():
        for name in names:
            was = kept.get(what, {}).get(name, 0)
            if getattr(now, name) > was:
                yield what, f"{what}: {name}: {getattr(now, name)}, and {was} are kept"
