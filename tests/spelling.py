"""The bytes of stores, pieces, digests and frames, written and read as docs/FORMAT.md says, and by nothing else of this repository.

A value of an entry is (counter, writer, content), where a content is None, ("link", target) or ("file", bytes). A place is (host, rank,
folder, name), in bytes, where the fleet's host and no folder are empty: so places are in order as Python orders them. A store or a piece is
a dict from places to entries, a digest one from places to (counter, writer). A frame is (hello, prints, asks, piece, more): a hello is None or
(writer, mark, seed, peers), a peer is (mark, writer), a print (from, until, number) and an ask (from, until, digest); no bound is None."""
import hashlib
import string

MAGIC, FORMAT = b"UCRS", 1
KINDS = {"store": 1, "piece": 2, "digest": 3, "frame": 4}
HOST_BYTES = set((string.ascii_letters + string.digits + "-.").encode())
GRAPHIC = set(range(33, 127))


class Fault(Exception):
    """Why bytes spell no value of the kind: its code and name."""


# ---- writing


def number(n):
    out = bytearray()
    while n >= 128:
        out.append(n % 128 + 128)
        n //= 128
    return bytes(out) + bytes([n])


def short(text):
    return bytes([len(text)]) + text


def path(place):
    _, rank, folder, name = place
    return bytes([rank]) + short(folder) + short(name)


def version(v):
    return number(v[0]) + number(v[1])


def content(c):
    if c is None:
        return b"\0"
    return bytes([1 if c[0] == "link" else 2]) + number(len(c[1])) + c[1]


def versions(value):
    return number(len(value)) + b"".join(short(p[0]) + path(p) + version(value[p]) for p in sorted(value))


def entries(value):
    hosts = sorted({place[0] for place in value})
    out = number(len(hosts))
    for host in hosts:
        own = sorted(place for place in value if place[0] == host)
        out += short(host) + number(len(own))
        out += b"".join(path(p) + version(value[p]) + content(value[p][2]) for p in own)
    return out


def bound(last, place):
    return b"\0" if place is None else b"\1" if place == last else b"\2" + short(place[0]) + path(place)


def ranges(rows, told):
    """Returns the bytes of rows that have a range and something that is told of it."""
    out, last = number(len(rows)), None
    for low, high, it in rows:
        out += bound(last, low) + bound(low, high) + told(it)
        last = high
    return out


def hello(it):
    if it is None:
        return b"\0"
    writer, mark, seed, peers = it
    return b"\1" + number(writer) + mark + number(seed) + number(len(peers)) + b"".join(other + number(at) for other, at in peers)


def frame(value):
    it, prints, asks, piece, more = value
    return hello(it) + ranges(prints, number) + ranges(asks, versions) + entries(piece) + bytes([more])


def sealed(kind, rest):
    """Returns the whole of a value's bytes: with the head, and with the checksum."""
    covered = MAGIC + bytes([FORMAT, KINDS[kind]]) + rest
    return covered + hashlib.sha256(covered).digest()


def spelled(kind, value):
    """Returns the bytes of a store, a piece, a digest or a frame."""
    return sealed(kind, {"digest": versions, "frame": frame}.get(kind, entries)(value))


# ---- reading


class Reader:
    def __init__(self, rest):
        self.rest = rest

    def cut(self, count):
        if len(self.rest) < count:
            raise Fault("Y1 Truncated")
        taken, self.rest = self.rest[:count], self.rest[count:]
        return taken

    def byte(self):
        return self.cut(1)[0]

    def number(self):
        n, last = 0, 128
        for at in range(10):
            last = self.byte()
            n += (last % 128) << 7 * at
            if last < 128:
                break
        if last >= 128 or (last == 0 and at > 0) or n >= 2**64:
            raise Fault("Y6 Number")
        return n

    def short(self):
        return self.cut(self.byte())

    def host(self):
        name = self.short()
        if len(name) > 64 or not set(name) <= HOST_BYTES:
            raise Fault("Y7 Host")
        return name

    def path(self):
        rank, folder, name = self.byte(), self.short(), self.short()
        if rank > 3 or not is_component(name) or (folder and not is_component(folder)):
            raise Fault("Y8 Path")
        return rank, folder, name

    def version(self):
        return self.number(), self.writer()

    def content(self):
        sort = self.byte()
        if sort > 2:
            raise Fault("Y9 Content")
        if sort == 0:
            return None
        text = self.cut(self.number())
        if sort == 1 and not (1 <= len(text) <= 4095 and set(text) <= GRAPHIC) or len(text) > 65536:
            raise Fault("Y9 Content")
        return ("link", "file")[sort - 1], text

    def choice(self, count):
        sort = self.byte()
        if sort >= count:
            raise Fault("Y6 Number")
        return sort

    def writer(self):
        it = self.number()
        if it >= 2**32:
            raise Fault("Y6 Number")
        return it

    def above(self, last, key):
        if last is not None and key <= last:
            raise Fault("Y10 Order")
        return key

    def entries(self):
        value, host = {}, None
        for _ in range(self.number()):
            host, last = self.above(host, self.host()), None
            count = self.number()
            if count == 0:
                raise Fault("Y6 Number")
            for _ in range(count):
                last = self.above(last, self.path())
                value[(host, *last)] = (*self.version(), self.content())
        return value

    def versions(self):
        value, last = {}, None
        for _ in range(self.number()):
            last = self.above(last, (self.host(), *self.path()))
            value[last] = self.version()
        return value

    def bound(self, last):
        sort = self.choice(3)
        place = (self.host(), *self.path()) if sort == 2 else last if sort else None
        if sort and place == (last if sort == 2 else None):
            raise Fault("Y10 Order")
        return place

    def ranges(self, told):
        rows, last = [], None
        for _ in range(self.number()):
            low = self.bound(last)
            last = self.bound(low)
            rows.append((low, last, told()))
        return rows

    def hello(self):
        if not self.choice(2):
            return None
        writer, mark, seed, peers = self.writer(), self.cut(16), self.number(), []
        for _ in range(self.number()):
            peers.append(self.above(peers[-1] if peers else None, (self.cut(16), self.writer())))
        return writer, mark, seed, peers

    def frame(self):
        return self.hello(), self.ranges(self.number), self.ranges(self.versions), self.entries(), bool(self.choice(2))


def is_component(name):
    return 1 <= len(name) <= 255 and set(name) <= GRAPHIC - {47} and name not in (b".", b"..")


def read(kind, whole):
    """Returns the store, piece, digest or frame that bytes spell, or raises the first fault."""
    if len(whole) < 38:
        raise Fault("Y1 Truncated")
    if whole[:4] != MAGIC:
        raise Fault("Y2 Magic")
    if whole[4] != FORMAT:
        raise Fault("Y3 Format")
    if whole[5] != KINDS[kind]:
        raise Fault("Y4 Kind")
    if hashlib.sha256(whole[:-32]).digest() != whole[-32:]:
        raise Fault("Y5 Checksum")
    reader = Reader(whole[6:-32])
    value = {"digest": reader.versions, "frame": reader.frame}.get(kind, reader.entries)()
    if reader.rest:
        raise Fault("Y11 Trailing")
    return value
