"""Losses of power beside puts of many kinds, removals, damages and upkeep, for `tools/hostile/power`.

In each start two processes put numbers, each in one of ten ways (WAYS, by its number), in rounds; after each round comes an upkeep (KEEPS).
The power goes at a random write or flush, or at the end. Then the machine starts on what is left, and looks at each content and each key.
It starts too on what would have been left at a few earlier moments: a beginning of the writes and flushes, of which a loss takes as ever.

What may be there: of each content and each key the state of its last durable call that had answered by then, or any that it had or could
come to have since. A durable put fixes its content and its key's entry, a durable put by hash its content, and a durable compaction the
entry that each key has, or its lack. What a plain put, a removal, a damage, a collection or a repair did since may be lost or not; a
compaction that isn't durable may take a key's lines, unless the last of them is durable. So a durable content that was removed and put
again plainly may be absent.
"""
import collections
import random
import re

from guest import empty_image
from losing_disk import LosingDisk
from starting import PATIENCE, VERSIONS, Start

WAYS = ["durable", "durable in pieces", "durable by hash", "plain", "plain in pieces", "plain by hash", "durable over damaged", "damaged",
        "removed", "plain after durable"]
KEEPS = ["compact durably", "collect", "repair", "sweep", "compact"]
LOST = "contents lost that had been put"
ROUNDS, NUMBERS = 3, 10  # of a start, and of each of its two processes in a round
PART, EARLIER, REQUESTS = 4, 2, 900  # losses of one disk, earlier moments of a loss, and requests before a loss


def way_of(number):
    """In which way a number is put."""
    return WAYS[(number % 10 * 7 + number // 10) % 10]


class State:
    """What may be there of each content and each key, and what is there while the power is on."""

    def __init__(self, contents, keys):
        self.contents, self.keys = ({at: {it} for at, it in found.items()} for found in (contents, keys))
        self.content, self.key, self.answered = dict(contents), dict(keys), dict(contents)
        self.closed = set()  # the keys of which the last line is surely durable

    def put(self, number, states, is_put, fixed, sure):
        """A content comes to have these states, the last one in the end, and a key this number, if that is put."""
        self.contents[number] = {states[-1]} if fixed and sure else self.contents.get(number, {"gone"}) | {*states}
        self.content[number] = states[-1]
        if sure:
            self.answered[number] = states[-1]
        if is_put:
            key = number // VERSIONS
            self.keys[key] = {number} if fixed and sure else self.keys.get(key, {None}) | {number}
            self.key[key] = number
            (self.closed.add if fixed and sure else self.closed.discard)(key)

    def mix(self, number, sure):
        """A number is put in its way; sure: it has answered."""
        way = way_of(number)
        if way == "removed":
            self.keys.setdefault(number // VERSIONS, {None}).add(None)
            self.key[number // VERSIONS] = None
            self.closed.discard(number // VERSIONS)
        elif way == "plain after durable":
            self.put(number, ["is"], True, True, sure)
            self.put(number, ["gone", "other", "is"], True, False, sure)
            if sure:
                self.keys[number // VERSIONS] = {number}
        elif way == "damaged":
            self.put(number, ["is", "other"], False, False, sure)
        else:
            fixed = way.startswith("durable")
            states = ["is"] if fixed and sure else ["other", "is"]
            self.put(number, states, "hash" not in way, fixed, sure)

    def keep(self, which, sure):
        """An upkeep is made; sure: it has answered."""
        kind, alive = KEEPS[which], set(self.key.values())
        for number in self.content:
            if kind == "collect" and number not in alive or kind == "repair" and self.content[number] == "other":
                self.contents[number].add("gone")
                self.content[number] = self.answered[number] = "gone"
        for key, number in self.key.items():
            if kind == "compact" and key not in self.closed or kind == "repair" and number is not None and self.content.get(number) != "is":
                self.keys[key].add(None)
            if kind == "repair" and self.content.get(number) != "is":
                self.key[key] = None
                self.closed.discard(key)
            if kind == "compact durably" and sure:
                self.keys[key] = {number}
                self.closed.add(key)


def events(lines, noted):
    """What the machine told that it began and did, with how many writes and flushes were noted by then."""
    for line, at in zip(lines, noted):
        told = re.fullmatch(r"(begin|did) (mix|keep) (\d+)", line)
        if told:
            yield at, told[1], told[2], int(told[3])


def after(contents, keys, told, until):
    """What may be there where the power went when so many requests were noted: of what hadn't answered by then anything may have been
    done."""
    state, begun = State(contents, keys), []
    for at, what, kind, number in told:
        if what == "begin":
            begun.append((kind, number))
        else:
            begun = [it for it in begun if it != (kind, number)]
            getattr(state, kind)(number, at <= until)
    for kind, number in begun:
        getattr(state, kind)(number, False)
    return state


def looked(lines):
    """The contents and keys that a look told of."""
    contents, entries = (re.findall(rf"(?m)^{it} (\d+) (\w+)$", "\n".join(lines)) for it in ("content", "entry"))
    keys = {int(key): int(it) if it.isdigit() else None if it == "none" else it for key, it in entries}
    return {int(number): it for number, it in contents}, keys


def judged(state, contents, keys):
    """What is there that may not be."""
    for number, there in sorted(contents.items()):
        if there not in state.contents.get(number, {"gone"}):
            yield f"the content of {number} ({way_of(number)}) {there}, not {sorted(state.contents.get(number, {'gone'}))}"
    for key, there in sorted(keys.items()):
        if there not in state.keys.get(key, {None}):
            yield f"the key {key} has {there}, not {sorted(state.keys.get(key, {None}), key=str)}"


class Mixes:
    """Losses of power of a machine."""

    def __init__(self, guest, folder, seed):
        self.guest, self.folder, self.seed, self.chance = guest, folder, seed, random.Random(seed)
        self.wrong, self.failed, self.counts = [], [], collections.Counter()

    def words(self, first, count):
        """The words of a start, whose numbers begin here: rounds of two processes, each with an upkeep behind it."""
        said = []
        for turn in range(ROUNDS):
            for process in range(2):
                said += ["tell-mix", first + process * count // 2 + turn * NUMBERS, NUMBERS]
            said += ["wait", "tell-keep", self.chance.randrange(len(KEEPS)), 1, "wait"]
        return ",".join(map(str, said))

    def begin(self, disk, count, puts, what):
        """Starts the machine and looks at so many numbers; the start, and what is there, None where it couldn't say."""
        disk.arm(None)
        disk.remember()
        start = Start(self.guest, disk, self.folder, f"tell-look,0,{count}" if count else "", puts)
        is_on, found = start.begins(), looked(start.lines)
        if not is_on or len(found[0]) != count or len(found[1]) != count // VERSIONS:
            self.fail(f"{what}: {len(found[0])} of {count} numbers were looked at; the last lines: {start.lines[-5:]}")
            return start, None
        return start, found

    def fail(self, what):
        """A start that didn't come to its end, which is no loss."""
        self.failed.append(what)
        print(f"FAILED: {what}", flush=True)

    def judge(self, state, found, what):
        """Counts what a look found, and what of it is wrong."""
        lost = sum(there != "is" for number, there in found[0].items() if state.answered.get(number) == "is")
        self.counts.update({"disks looked at": 1, LOST: lost, "contents and keys looked at": sum(map(len, found))})
        for it in judged(state, *found):
            self.wrong.append(it)
            print(f"WRONG: {what}: {it}", flush=True)

    def lose(self, disk, number, first, count, state):
        """One start on a disk on which this may stand, its loss, and looks at what earlier losses would have left; what may stand then."""
        start, found = self.begin(disk, first, self.words(first, count), f"loss {number}")
        if not found:
            start.end()
            return None
        self.judge(state, found, f"loss {number}")
        disk.arm(self.chance.randrange(REQUESTS))
        start.wait(PATIENCE, "done")
        if start.end():
            self.fail(f"loss {number}: a call or the machine failed; the last lines: {start.lines[-5:]}")
        told = [*events(start.lines, start.noted)]
        for what, kind in (("puts and removals", "mix"), ("upkeeps", "keep")):
            self.counts[f"{what} answered"] += sum(it[1:3] == ("did", kind) for it in told)
        for _ in range(EARLIER):
            moment = self.chance.randrange(start.noted[start.lines.index("begun")], len(disk.log) + 1)
            earlier = disk.beginning(moment)
            self.take(earlier)
            self.look(earlier, first + count, after(*found, told, moment), f"loss {number} at {moment} requests")
        state = after(*found, told, len(disk.log))
        self.counts["writes and flushes"] += len(disk.log)
        self.take(disk)
        return state

    def take(self, disk):
        """Takes the power from a disk."""
        self.counts.update({f"writes since the last flush {name}": lost for name, lost in disk.lose(self.chance).items()})

    def look(self, disk, count, state, what):
        """Starts the machine to look alone."""
        start, found = self.begin(disk, count, "", what)
        start.end()
        if found:
            self.judge(state, found, what)

    def run(self, losses):
        """So many losses; whether nothing was wrong and something was lost."""
        count = 2 * ROUNDS * NUMBERS // VERSIONS * VERSIONS
        state = None
        for number in range(losses):
            if number % PART == 0 or not state:  # behind a start that failed too
                disk, first, state = LosingDisk(empty_image(self.folder, self.guest.system)), 0, State({}, {})
            state = self.lose(disk, number, first, count, state)
            first += count
            if state and (number % PART == PART - 1 or number == losses - 1):
                self.look(disk, first, state, f"loss {number}")
        for what, many in self.counts.items():
            print(f"  {many} {what}")
        lost = self.counts[LOST]
        print(f"{self.guest.system}, seed {self.seed}: {losses} losses, {len(self.wrong)} wrong, {len(self.failed)} starts that failed"
              + ("" if lost else "; nothing was lost, so nothing was tried"))
        return lost and not self.wrong and not self.failed
