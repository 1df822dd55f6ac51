"""One start of the machine of `tools/hostile/power`, and what its puts told before losses of power, and reads behind them."""
import collections
import re
import socket
import threading
import time

PATIENCE = 600  # seconds that a start may take
DURABLE, PLAIN = "tell-durable", "tell-put"
VERSIONS, NEAR = 4, 20  # how many numbers have one key; keys no further from one another are read in one range


class Start:
    """One start of the machine, from its first line to the loss of its power."""

    def __init__(self, guest, disk, folder, reads, puts):
        self.lines, self.noted, self.disk = [], [], disk
        path = folder / "socket"
        with socket.socket(socket.AF_UNIX) as listener:
            listener.bind(str(path))
            listener.listen()
            listener.settimeout(30)
            self.process = guest.start(path, reads, puts)
            self.link, _ = listener.accept()
        path.unlink()
        self.threads = [threading.Thread(target=self.hear), threading.Thread(target=disk.serve, args=[self.link])]
        for it in self.threads:
            it.start()

    def hear(self):
        """Keeps each line that the machine has told to its end, and how many writes and flushes of its disk were noted by then."""
        for line in self.process.stdout:
            if line.endswith(b"\n"):
                self.noted.append(len(self.disk.log))
                self.lines.append(line.decode(errors="replace").strip())

    def wait(self, seconds, *lines):
        """Waits for one of these lines, for a loss of power, or so many seconds; whether a line came."""
        end = time.monotonic() + seconds
        while time.monotonic() < end and not self.disk.cut.is_set() and self.process.poll() is None:
            if any(it in self.lines for it in lines):
                return True
            time.sleep(0.01)
        return False

    def begins(self):
        """Whether the machine comes to its puts."""
        return self.wait(PATIENCE, "begun", "not mounted") and "begun" in self.lines

    def end(self):
        """Takes the power away, where it isn't gone yet; whether the machine had died or a call there failed."""
        died = self.process.poll() is not None
        self.process.kill()
        self.process.wait()
        for it in self.threads:
            it.join()
        self.link.close()
        self.process.stdout.close()
        return died or "failed" in self.lines


class Told:
    """What puts answered, and what was found of it."""

    def __init__(self):
        self.last = {}  # of each key the last number whose put answered, and the word by which it was put
        self.counts = {word: {"answered": 0, "read": 0, "lost": 0} for word in (DURABLE, PLAIN)}
        self.ways, self.wrong = collections.Counter(), []

    def put(self, number, word):
        """A put has answered."""
        self.counts[word]["answered"] += 1
        self.last[number // VERSIONS] = number, word

    def found(self, key, how):
        """What a read told of a key that was put."""
        number, word = self.last[key]
        has = re.fullmatch(r"has (\d+)", how)
        is_there = bool(has) and int(has[1]) >= number
        self.counts[word]["read" if is_there else "lost"] += 1
        if is_there:
            return
        del self.last[key]
        way = "has a content from before" if has else re.sub(r'".*?"|\d+|/\S+', "..", how)
        self.ways[way] += 1
        if word == DURABLE or how == "has other bytes":
            self.wrong.append(f"key {key} {how}, and the put of {number} had answered by {word}")

    def reads(self):
        """The words for the machine by which all keys are read: a few ranges, since its command line is short."""
        ranges = []
        for key in sorted(self.last):
            if ranges and key - ranges[-1][1] <= NEAR:
                ranges[-1][1] = key
            else:
                ranges.append([key, key])
        return ",".join(f"tell-get,{first},{last - first + 1}" for first, last in ranges)
