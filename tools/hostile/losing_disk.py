"""A disk that loses with its power what wasn't flushed, served as a network block device (NBD), for `tools/hostile/power`.

What was written before a flush that was answered stays. Of each later write a loss keeps all, nothing, or some of its blocks, and what
it keeps lands in the order of the writes. A disk may do so: its cache holds writes back, and gives them to the medium in any order.
A block of 4 KiB is kept whole or not at all. Where single ones were torn at 512 bytes, ext4 couldn't always be mounted: a torn block of
its journal is "corrupt", and a torn superblock has an "invalid checksum".
"""
import contextlib
import socket
import struct
import threading

BLOCK = 4096
SHARES, TORN = [0, 0.1, 0.5, 0.9], 0.2  # which share of the writes a loss may keep whole, and of how many it keeps single blocks
READ, WRITE, DISCONNECT, FLUSH = 0, 1, 2, 3
HAS_FLAGS, SEND_FLUSH = 1, 4
INVALID = 22
GREETING = b"NBDMAGIC" + struct.pack(">Q", 0x00420281861253)
REQUEST, REPLY = struct.Struct(">IHHQQI"), struct.Struct(">IIQ")
REQUEST_MAGIC, REPLY_MAGIC = 0x25609513, 0x67446698


class Cut(Exception):
    """The power went, or the other side hung up."""


class LosingDisk:
    """A disk with the bytes of an image, which begins with all of them flushed: what it has now, what a loss would leave of that at
    least, and the writes in between."""

    def __init__(self, image):
        self.now, self.kept, self.waiting = bytearray(image), bytearray(image), []
        self.left = None
        self.cut = threading.Event()
        self.remember()

    def remember(self):
        """Notes each write and flush from now on, for `beginning`."""
        self.first, self.log = bytes(self.kept), list(self.waiting)

    def beginning(self, count):
        """A disk to which so many of the noted writes and flushes have come."""
        disk = LosingDisk(self.first)
        for it in self.log[:count]:
            disk.flush() if it is None else disk.write(*it)
        return disk

    def write(self, at, data):
        self.now[at : at + len(data)] = data
        self.waiting.append((at, bytes(data)))
        self.log.append(self.waiting[-1])

    def flush(self):
        for at, data in self.waiting:
            self.kept[at : at + len(data)] = data
        self.waiting = []
        self.log.append(None)

    def lose(self, chance):
        """The power goes: how many of the writes since the last flush were kept whole, kept in part, and lost."""
        share, counts = chance.choice(SHARES), {"kept": 0, "torn": 0, "lost": 0}
        for at, data in self.waiting:
            blocks = range(0, len(data), BLOCK)
            some = chance.random() < TORN
            stays = [it for it in blocks if chance.random() < 0.5] if some else blocks if chance.random() < share else []
            for it in stays:
                block = data[it : it + BLOCK]
                self.kept[at + it : at + it + len(block)] = block
            counts["kept" if len(stays) == len(blocks) else "torn" if stays else "lost"] += 1
        self.now, self.waiting = bytearray(self.kept), []
        return counts

    def arm(self, requests):
        """After so many further writes and flushes the power goes before the next one is answered; None: it stays on."""
        self.cut.clear()
        self.left = requests

    def spend(self):
        """One write or flush more has come."""
        if self.left is not None:
            self.left -= 1
            if self.left < 0:
                self.cut.set()
                raise Cut

    def serve(self, link):
        """Answers the requests on this socket until the power goes or the other side hangs up."""
        with contextlib.suppress(Cut, ConnectionError):
            link.sendall(GREETING + struct.pack(">QI124x", len(self.now), HAS_FLAGS | SEND_FLUSH))
            while self.answer(link):
                pass

    def answer(self, link):
        """Answers one request, and whether there may be a further one."""
        magic, _, kind, handle, at, length = REQUEST.unpack(received(link, REQUEST.size))
        if magic != REQUEST_MAGIC or kind == DISCONNECT:
            return False
        error, data = 0, b""
        if kind == READ:
            data = bytes(self.now[at : at + length])
        elif kind == WRITE:
            self.write(at, received(link, length))
            self.spend()
        elif kind == FLUSH:
            self.spend()
            self.flush()
        else:
            error = INVALID
        link.sendall(REPLY.pack(REPLY_MAGIC, error, handle) + data)
        return True


def received(link, length):
    """So many bytes of a socket."""
    data = link.recv(length, socket.MSG_WAITALL)
    if len(data) < length:
        raise Cut
    return data
