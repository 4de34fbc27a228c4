"""A store as its users see it, and the sessions of readers beside it, kept from the lines alone that were done: what checks hold the
program's answers against."""
import copy

from store_limits import SESSIONS

UNSEEN = 16, b"", b"cryptree: unseen\n"


class PlainStore:
    """A store as its users see it: the bytes of each file by its path, None for a folder, how many holders were made, and the grants."""

    def __init__(self):
        self.nodes, self.holders, self.grants = {b"/": None}, 0, set()

    def done(self, line):
        """Follows a line that wasn't refused."""
        word, *fields = line.split(b" ")
        if word in (b"holder", b"replace"):
            self.holders += 1
        if word == b"replace":
            self.grants = {(self.holders if holder == int(fields[0]) else holder, path) for holder, path in self.grants}
        elif word in (b"mkdir", b"write"):
            self.nodes[fields[0]] = bytes.fromhex(b"".join(fields[1:]).decode()) if word == b"write" else None
        elif word == b"rm":
            del self.nodes[fields[0]]
            self.grants = {(holder, path) for holder, path in self.grants if path != fields[0]}
        elif word in (b"grant", b"revoke"):
            self.grants ^= {(int(fields[0]), fields[1])}
        elif word in (b"rename", b"move"):
            above, name = fields[0].rsplit(b"/", 1)
            self.shift(fields[0], above + b"/" + fields[1] if word == b"rename" else fields[1].rstrip(b"/") + b"/" + name)

    def shift(self, old, new):
        """A node gets another path, and all below it with it."""
        def shifted(path):
            return new + path[len(old):] if is_below(path, old) else path

        self.nodes = {shifted(path): data for path, data in self.nodes.items()}
        self.grants = {(holder, shifted(path)) for holder, path in self.grants}

    def view(self, holder):
        """The line for each path that is shown to the holder, or to the owner."""
        entries = [path for its_holder, path in self.grants if its_holder == holder] if holder else [b"/"]
        lines = {}
        for path, data in self.nodes.items():
            if any(is_below(path, entry) for entry in entries):
                lines[path] = b"folder " + path + b"\n" if data is None else b"file " + path + b" " + data.hex().encode() + b"\n"
            elif any(is_below(entry, path) for entry in entries):
                lines[path] = b"ancestor " + path + b"\n"
        return lines

    def answers(self, holder, asked):
        if holder > self.holders:
            return [(15, b"", b"cryptree: no holder, %d known\n" % self.holders) for _ in asked]
        lines = self.view(holder)
        whole = b"".join(lines[path] for path in sorted(lines))
        return [(0, whole, b"") if path is None else (0, lines[path], b"") if path in lines else UNSEEN for path in asked]


def is_below(path, above):
    """Whether a path is this one, or one below it."""
    return path == above or path.startswith(above.rstrip(b"/") + b"/")


class PlainSeat:
    """A reader's session: whose it is by what was typed, how many batches are pinned, and how many were read."""

    def __init__(self, holder, key, pinned):
        self.holder, self.key, self.pinned, self.read = holder, key, pinned, 0


class PlainServed:
    """What a `serve` replies to lines of sessions over a store of so many batches, with the keys of its holders: which store stood behind
    which batch follows from the owner's lines that were done."""

    def __init__(self, plain, keys, batches):
        self.plain, self.keys, self.batches, self.is_begun = plain, keys, batches, False
        self.seats, self.stores = [], {batches: copy.deepcopy(plain)}

    def done(self, line):
        """Follows an owner's line that wasn't refused: a batch for each command, and one for the first of all, which begins an epoch."""
        replaced = line.split(b" ")[1:] if line.startswith(b"replace ") else []
        self.batches += 1 + 2 * sum(holder == int(number) for holder, _ in self.plain.grants for number in replaced)
        self.batches += not self.is_begun
        self.is_begun = True
        self.plain.done(line)
        self.stores[self.batches] = copy.deepcopy(self.plain)

    def reply(self, line):
        word, number, *key = line.split(b" ")
        if word == b"session":
            return self.session(int(number), bytes.fromhex(key[0].decode()))
        if int(number) > len(self.seats):
            return b"refused no-session\n"
        return getattr(self, word.decode())(self.seats[int(number) - 1])

    def session(self, holder, key):
        if len(self.seats) == SESSIONS:
            return b"refused too-many\n"
        self.seats.append(PlainSeat(holder, key, self.batches))
        return b"session %d of %d\n" % (len(self.seats), self.batches)

    def step(self, seat):
        seat.read = min(seat.read + 1, seat.pinned)
        return b"read %d of %d\n" % (seat.read, seat.pinned)

    def pin(self, seat):
        seat.pinned = self.batches
        return b"pinned %d\n" % seat.pinned

    def show(self, seat):
        plain = self.stores[seat.pinned]
        if seat.read < seat.pinned:
            return b"refused not-read\n"
        if seat.holder > plain.holders:
            return b"refused no-holder\n"
        if self.keys[seat.holder] != seat.key:
            return b"refused wrong-key\n"
        return plain.answers(seat.holder, [None])[0][1] + b"end\n"
