"""Disks with a volatile cache, served to qemu over NBD (its protocol: docs/proto.md of the nbd project) at a socket of this process.

What was written since the last flush is in the cache alone. When the power is cut each sector of the cache is on the disk or isn't,
by itself, and one that was written twice has either text. What a flush answered is on the disk. So a disk may keep its sectors in any
order, as disks may (SCSI and NVMe promise no order between writes without a flush), but a sector is never torn.
"""
import mmap
import os
import socket
import struct
import threading

SECTOR = 512
BLOCK = 4096
OPTION_MAGIC, ANSWER_MAGIC, REQUEST_MAGIC, REPLY_MAGIC = 0x49484156454F5054, 0x3E889045565A9, 0x25609513, 0x67446698
HAS_FLAGS, SENDS_FLUSH, SENDS_FUA = 1, 4, 8
READ, WRITE, LEAVE, FLUSH = range(4)
FUA = 1
INVALID = 22
LONGEST = 1 << 25


class Disk:
    """The blocks that differ from an image, and the sectors that are in the cache: for each all that was written, in order."""

    def __init__(self, image, blocks=None):
        self.image, self.blocks, self.cache = image, dict(blocks or {}), {}

    def block(self, number):
        return self.blocks.get(number) or self.image[number * BLOCK : (number + 1) * BLOCK]

    def read(self, at, length):
        first, end = at // BLOCK, -(-(at + length) // BLOCK)
        found = bytearray(b"".join(self.block(number) for number in range(first, end)))
        begins = first * BLOCK
        for sector in range(first * BLOCK // SECTOR, end * BLOCK // SECTOR) if self.cache else ():
            if sector in self.cache:
                found[sector * SECTOR - begins : (sector + 1) * SECTOR - begins] = self.cache[sector][-1]
        return bytes(found[at - begins : at - begins + length])

    def write(self, at, data):
        for place in range(0, len(data), SECTOR):
            self.cache.setdefault((at + place) // SECTOR, []).append(data[place : place + SECTOR])

    def settle(self, chosen):
        """Puts these sectors on the disk."""
        by_block = {}
        for sector, data in chosen.items():
            by_block.setdefault(sector * SECTOR // BLOCK, []).append((sector * SECTOR % BLOCK, data))
        for number, parts in by_block.items():
            block = bytearray(self.block(number))
            for place, data in parts:
                block[place : place + SECTOR] = data
            self.blocks[number] = bytes(block)

    def flush(self):
        self.settle({sector: texts[-1] for sector, texts in self.cache.items()})
        self.cache = {}

    def write_through(self, at, data):
        """A write that is answered once it is on the disk."""
        self.write(at, data)
        sectors = range(at // SECTOR, (at + len(data)) // SECTOR)
        self.settle({sector: self.cache.pop(sector)[-1] for sector in sectors})

    def after_cut(self, chance, share):
        """A disk as it may be after the power was cut now: each sector of the cache is kept in this share of all cases."""
        disk = Disk(self.image, self.blocks)
        disk.settle({sector: chance.choice(texts) for sector, texts in self.cache.items() if chance.random() < share})
        return disk


def image_of(path):
    """An image in a file, as bytes that are read where they are asked for."""
    with open(path, "rb") as file:
        return mmap.mmap(file.fileno(), 0, access=mmap.ACCESS_READ)


class Gone(Exception):
    """The other side has closed the connection."""


class Server:
    """Serves the disks of its list under the names 0, 1, .. until the power is cut. It counts writes and flushes."""

    def __init__(self, path):
        self.disks, self.is_on, self.requests, self.flushes, self.waits_for = [], False, 0, 0, None
        self.lock = threading.Lock()
        self.listener = socket.socket(socket.AF_UNIX)
        if os.path.exists(path):
            os.unlink(path)
        self.listener.bind(path)
        self.listener.listen(8)
        threading.Thread(target=self.accept, daemon=True).start()

    def start(self, disks):
        with self.lock:
            self.disks, self.is_on, self.requests, self.flushes, self.waits_for = disks, True, 0, 0, None

    def cut_before(self, count, is_flush, action):
        """The power goes before so many more writes and flushes are done, or flushes alone. Then this is called."""
        with self.lock:
            self.waits_for = (is_flush, count + (self.flushes if is_flush else self.requests), action)

    def cut(self):
        """From now on nothing is done or answered."""
        with self.lock:
            self.is_on = False

    def accept(self):
        while True:
            client, _ = self.listener.accept()
            threading.Thread(target=self.serve, args=(client,), daemon=True).start()

    def serve(self, client):
        try:
            disk = self.greet(client)
            while disk and self.answer(client, disk):
                pass
        except (Gone, OSError):
            pass
        client.close()

    def greet(self, client):
        """Agrees on a disk."""
        client.sendall(b"NBDMAGIC" + struct.pack(">QH", OPTION_MAGIC, 1))
        taken(client, 4)
        while True:
            magic, option, length = struct.unpack(">QII", taken(client, 16))
            if magic != OPTION_MAGIC or length > LONGEST:
                return None
            data = taken(client, length)

            def reply(kind, more=b"", option=option):
                client.sendall(struct.pack(">QIII", ANSWER_MAGIC, option, kind, len(more)) + more)

            if option == 2:  # abort
                reply(1)
                return None
            if option == 7:  # go
                (size,) = struct.unpack(">I", data[:4])
                disk = self.disks[int(data[4 : 4 + size])]
                reply(3, struct.pack(">HQH", 0, len(disk.image), HAS_FLAGS | SENDS_FLUSH | SENDS_FUA))
                reply(3, struct.pack(">HIII", 3, SECTOR, BLOCK, LONGEST))
                reply(1)
                return disk
            reply(0x80000001)  # not known here

    def answer(self, client, disk):
        """Does one request. Returns whether another one may come."""
        magic, flags, kind, handle, at, length = struct.unpack(">IHHQQI", taken(client, 28))
        if magic != REQUEST_MAGIC or kind == LEAVE:
            return False
        data = taken(client, length) if kind == WRITE else b""
        error, out = 0, b""
        with self.lock:
            # A flush of an empty cache changes nothing. Who syncs all the time makes many.
            if kind == WRITE or kind == FLUSH and disk.cache:
                self.requests += 1
                self.flushes += kind == FLUSH
                if self.waits_for and (self.flushes if self.waits_for[0] else self.requests) >= self.waits_for[1]:
                    self.is_on = False
                    threading.Thread(target=self.waits_for[2], daemon=True).start()
                    self.waits_for = None
            if not self.is_on:
                return False
            if kind == READ:
                out = disk.read(at, length)
            elif kind == WRITE and flags & FUA:
                disk.write_through(at, data)
            elif kind == WRITE:
                disk.write(at, data)
            elif kind == FLUSH:
                disk.flush()
            else:
                error = INVALID
        client.sendall(struct.pack(">IIQ", REPLY_MAGIC, error, handle) + out)
        return True


def taken(client, length):
    parts = []
    while length:
        part = client.recv(min(length, 1 << 20))
        if not part:
            raise Gone
        parts.append(part)
        length -= len(part)
    return b"".join(parts)
