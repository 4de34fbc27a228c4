#!/usr/bin/env python3
"""Reads a store as docs/FORMAT.md says it, and answers as docs/PROGRAM.md says: it shares nothing with the program but these pages.

    checks/store_reader.py STORE list         what the program prints for the bundle's line on standard input, and its status
    checks/store_reader.py STORE open PATH
    checks/store_reader.py STORE audit

    a store    header, batches up to the first closed gate, and then anything
    header     "CRYPTREE", 1, check of the owner's key (32), gate (1)
    batch      type (1), number (4), epoch (4), L (4), slot (32), masked payload (L), check (32), owner tag (32), gate (1)
    payload    the note's code (1) and fields, number of links (4), of contents (4), the links, the contents
    link       1, kind (1), ids of source and target (4, 4), serials of both (8, 8), nonce (8), cipher (32), tag (32)
    content    2, kind (1), id (4), serial (8), nonce (8), n (4), cipher (n), tag (32)
    slot       once a batch is published the key T that masks its payload; its check is then HMAC(T, masked payload)
    owner tag  HMAC(HMAC(owner key, 5), the tag before, the batch up to its slot, masked payload, check)
    link       seals the target's key under the source's, a content a name or a file under a key; a tag covers what is before it
    reading    the log to its end, then what its payloads make, and then the records that the key opens, one after another
    audit      in place of these records all that right links lead to from the key, whenever they were written

Checks import it: `answers` gives what `list` and `open` answer, `audits` what `audit` may answer, `opened_to_write` what `run` does with
the owner's line alone, and `upgrade` before it writes its batches; `Sessions` what `serve` replies to the lines of readers' sessions.
"""
import functools
import hmac
import os
import re
import sys
from collections import defaultdict, namedtuple

from key_step import (BYTES_OF_FILE, CLEARANCES, CONTENTS, GIVE, HOLDER, KEY_OF_HOLDER, LINKS, NAME_OF_FOLDER, NEW_FILE,
                      NEW_FOLDER, NEW_HOLDER, NOTES, OWNER, ROOT, SHIFT_FILE, SHIFT_FOLDER, STRICT_ROOT, TAKE, UPGRADE, Head, State,
                      sealing_role, source, target)
from store_limits import FILE_LIMIT, NAME_LIMIT, SESSIONS, STORE_LIMIT

HEADER, FRAME = 42, 110
NAME = re.compile(rb"(?!\.\.?\Z)[A-Za-z0-9._-]{1,%d}" % NAME_LIMIT)
FIELDS = dict.fromkeys((ROOT, STRICT_ROOT, UPGRADE), ()) | {NEW_HOLDER: (4, 32)}  # of the others two or one of 4 bytes
FIELDS |= dict.fromkeys((NEW_FOLDER, NEW_FILE, SHIFT_FILE, SHIFT_FOLDER, GIVE, TAKE), (4, 4))

Bundle = namedtuple("Bundle", "holder key")  # the owner's has holder 0
Batch = namedtuple("Batch", "at type number epoch slot masked check tag gate end")
Payload = namedtuple("Payload", "code fields links contents")
Record = namedtuple("Record", "at head header cipher tag")
Key = namedtuple("Key", "id serial bytes")  # of an audit


class Fault(Exception):
    """An answer other than done, with its status and its line."""

    def __init__(self, status, said):
        super().__init__(said)
        self.answer = status, b"", b"cryptree: " + said.encode() + b"\n"


class FormFault(Exception):
    """The place in a payload at which it has no form."""


def bad_line(line):
    return Fault(3, f"bad script line {line}")


def not_a_store():
    return Fault(9, "not a store")


def damaged(at):
    return Fault(10, f"damaged at {at}")


def wrong_key():
    return Fault(11, "wrong key")


def tampered(batch, at):
    return Fault(12, f"tampered batch {batch} at {at}")


def no_holder(known):
    return Fault(15, f"no holder, {known} known")


def unseen():
    return Fault(16, "unseen")


def not_wanted(version):
    """The store has another version than this one, which the command asks for."""
    return Fault(17, "needs upgrade") if version == 2 else Fault(18, "already version 2")


# sealing

def mac(key, *parts):
    return hmac.digest(key, b"".join(parts), "sha256")


def be32(number):
    return number.to_bytes(4, "big")


@functools.lru_cache(8192)
def stream(key, number, blocks):
    """The first blocks of ChaCha20's stream, all at once: a word of all of them is one long number, with 64 bits for each block."""
    def lanes(words):
        return int.from_bytes(b"".join(word.to_bytes(8, "little") for word in words), "little")

    low = lanes([0xffffffff] * blocks)

    def quarter(words, a, b, c, d):
        for (into, of, turned), bits in zip(((a, b, d), (c, d, b)) * 2, (16, 12, 8, 7)):
            words[into] = words[into] + words[of] & low
            mixed = words[turned] ^ words[into]
            words[turned] = mixed << bits & low | mixed >> 32 - bits & low

    constants = b"expand 32-byte k" + key
    begun = [int.from_bytes(constants[place:place + 4], "little") * (low // 0xffffffff) for place in range(0, 48, 4)]
    begun += [lanes(range(blocks)), 0] + [part * (low // 0xffffffff) for part in (number & 0xffffffff, number >> 32)]
    words = list(begun)
    for _ in range(10):
        for first in range(4):
            quarter(words, first, first + 4, first + 8, first + 12)
        for first in range(4):
            quarter(words, first, 4 + (first + 1) % 4, 8 + (first + 2) % 4, 12 + (first + 3) % 4)
    out = bytearray(64 * blocks)
    for place, (word, at_first) in enumerate(zip(words, begun)):
        lane = (word + at_first & low).to_bytes(8 * blocks, "little")
        for byte in range(4):
            out[4 * place + byte::64] = lane[byte::8]
    return bytes(out)


def xored(key, number, text):
    """The text, xored with as many bytes of the stream."""
    pad = stream(key, number, (len(text) + 63) // 64)[:len(text)]
    return (int.from_bytes(text, "big") ^ int.from_bytes(pad, "big")).to_bytes(len(text), "big")


def veil(owner, batch):
    return mac(owner, b"\3", be32(batch.epoch), be32(batch.number))


def owner_tag(owner, before, head, masked, check):
    return mac(mac(owner, b"\5"), before, head, masked, check)


# payloads

class Cursor:
    """The fields of a payload, one after another."""

    def __init__(self, text):
        self.text, self.at = text, 0

    def take(self, size):
        if len(self.text) - self.at < size:
            raise FormFault(self.at)
        self.at += size
        return self.text[self.at - size:self.at]

    def number(self, size, allowed=None):
        number = int.from_bytes(self.take(size), "big")
        if allowed is not None and number not in allowed:
            raise FormFault(self.at - size)
        return number


def read_payload(text, at):
    """The payload of this spelling, which stands at this place of the file."""
    cursor = Cursor(text)
    code = cursor.number(1, NOTES)
    fields = [cursor.number(4) if size == 4 else cursor.take(size) for size in FIELDS.get(code, (4,))]
    links, contents = cursor.number(4), cursor.number(4)
    links = [read_link(cursor, at) for _ in range(links)]
    contents = [read_content(cursor, at) for _ in range(contents)]
    if cursor.at < len(text):
        raise FormFault(cursor.at)
    return Payload(code, fields, links, contents)


def read_link(cursor, base):
    at = cursor.at
    cursor.number(1, (1,))
    kind = cursor.number(1, LINKS)
    ids = cursor.number(4), cursor.number(4)
    serials = cursor.number(8), cursor.number(8)
    nonce = cursor.number(8)
    return Record(base + at, Head(kind, ids, serials, nonce), cursor.text[at:cursor.at], cursor.take(32), cursor.take(32))


def read_content(cursor, base):
    at = cursor.at
    cursor.number(1, (2,))
    kind = cursor.number(1, CONTENTS)
    ids, serials = (cursor.number(4),), (cursor.number(8),)
    nonce = cursor.number(8)
    length = cursor.number(4, range(CONTENTS[kind][1], CONTENTS[kind][2] + 1))
    return Record(base + at, Head(kind, ids, serials, nonce), cursor.text[at:cursor.at], cursor.take(length), cursor.take(32))


# the log

def test_header(image, owner):
    if len(image) < HEADER or image[:9] != b"CRYPTREE\1":
        raise not_a_store()
    if owner is not None and image[9:41] != mac(owner, b"\4"):
        raise wrong_key()


def batch_at(image, at, number, epoch):
    """The batch at this place, behind one of this number and epoch."""
    if len(image) - at < FRAME:
        raise damaged(at)
    kind, (its_number, its_epoch, length) = image[at], (int.from_bytes(image[at + n:at + n + 4], "big") for n in (1, 5, 9))
    fits = its_number == number + 1 and at + FRAME + length <= min(len(image), STORE_LIMIT)
    if kind == 2:
        fits = fits and length == 0 and its_epoch == epoch + 1
    else:
        fits = fits and kind == 1 and epoch > 0 and its_epoch == epoch
    if not fits:
        raise damaged(at)
    slot, masked = at + 13, at + 45
    check, tag, gate = (masked + length + n for n in (0, 32, 64))
    parts = (image[begin:end] for begin, end in ((slot, masked), (masked, check), (check, tag), (tag, gate)))
    return Batch(at, kind, its_number, its_epoch, *parts, image[gate], gate + 1)


def log(image, owner, writing=False):
    """The batches of the log with their payloads (None for an epoch's): those published, or for writing all."""
    found = []
    while row := next_batch(image, found[-1][0] if found else before_the_log(image), owner, writing):
        found.append(row)
    return found


def before_the_log(image):
    """What stands in the place of a batch before the first one."""
    return Batch(0, 0, 0, 0, b"", b"", b"", image[9:41], image[41], HEADER)


def next_batch(image, last, owner, writing=False):
    """The batch behind this one, with its payload, and nothing where the log ends."""
    batch = batch_behind(image, last, owner)
    if batch is None:
        return None
    if not writing and mac(batch.slot, batch.masked) != batch.check:
        if batch.gate == 1:
            raise tampered(batch.number, batch.at + 13)
        return None
    return batch, unmasked(batch, veil(owner, batch) if writing else batch.slot)


def batch_behind(image, last, owner):
    """The batch behind this one, and nothing where the gate is closed. With the owner's key its owner tag is tested, and its payload isn't
    looked at."""
    if image[last.end - 1:last.end] != b"\1":
        return None
    batch = batch_at(image, last.end, last.number, last.epoch)
    if owner is not None and batch.tag != owner_tag(owner, last.tag, image[batch.at:batch.at + 13], batch.masked, batch.check):
        raise tampered(batch.number, batch.end - 33)
    return batch


def unmasked(batch, key):
    if batch.type == 2:
        return None
    try:
        return read_payload(xored(key, 0, batch.masked), batch.at + 45)
    except FormFault as fault:
        raise damaged(batch.at + 45 + fault.args[0]) from fault


# what the payloads make

def followed(batches):
    """The state after the payloads, the last link for each edge and serials, and the last content for each kind and id: each with the
    number of its batch."""
    state, links, contents = State(), {}, {}
    for batch, payload in batches:
        if payload is None:
            state.begin_epoch(batch.epoch)
            continue
        if not takes(state, payload):
            raise damaged(batch.at + 45)
        links.update({((link.head.kind, *link.head.ids), link.head.serials): (batch.number, link) for link in payload.links})
        contents.update({(content.head.kind, *content.head.ids): (batch.number, content) for content in payload.contents})
    return state, links, contents


def takes(state, payload):
    """Whether the payload fits; then it is followed."""
    if not state.fits(payload.code, payload.fields):
        return False
    _, heads = state.take(payload.code, payload.fields)
    if heads != [record.head for record in payload.links + payload.contents]:
        return False
    return all((len(content.cipher) == 0) == (content.head[:2] == (NAME_OF_FOLDER, (1,))) for content in payload.contents)


# what a reader opens

class Reading:
    """What a key opens of what was followed: its folders at once, its files when they are asked for."""

    def __init__(self, state, links, contents, bundle):
        self.state, self.links, self.contents = state, links, contents
        self.keys, self.names = {(HOLDER, bundle.holder) if bundle.holder else (OWNER, 0): bundle.key}, {}
        self.texts = {}  # what was opened, by its kind and id
        self.rights = state.rights(bundle.holder)
        self.open_folders(bundle.holder)

    def open_folders(self, holder):
        parents, depth, rights = self.state.parents, self.state.depth, self.rights
        for folder in sorted(rights.entries):
            self.follow(2 if holder else 1, holder, folder)
            self.follow(3, folder, folder)
        for file in sorted(rights.entry_files):
            self.follow(2, holder, CLEARANCES + file)
        for folder in sorted(rights.allowed - rights.entries, key=lambda one: (depth(one), one)):
            self.follow(6, parents[folder], folder)
        for folder in sorted(rights.allowed):
            self.follow(4, folder, folder)
            self.follow(5, folder, folder)
        for folder in sorted(rights.named - rights.allowed, key=lambda one: (-depth(one), one)):
            self.follow(*self.up_to(folder))
        for folder in sorted(rights.named):
            self.follow(7, folder, folder)
            self.names[folder] = self.text(NAME_OF_FOLDER, folder)

    def open_clearances(self):
        """Opens the key of each file with a grant, as the owner does who writes."""
        for file in self.state.granted_files():
            self.follow(1, 0, CLEARANCES + file)

    def up_to(self, folder):
        """The edge by which a folder is opened that is named and not allowed: from below it, or from a file in it."""
        below = [child for child in self.rights.named if self.state.parents[child] == folder]
        if below:
            return 8, min(below), folder
        return 11, CLEARANCES + min(file for file in self.rights.entry_files if self.state.homes[file] == folder), folder

    def follow(self, *edge):
        """Opens the last link of this edge between present keys."""
        batch, link = self.links[edge, (self.state.serials[source(edge)], self.state.serials[target(edge)])]
        self.keys[target(edge)] = self.opened(batch, link, source(edge))

    def text(self, kind, number):
        """Opens the last content of this kind and id, and tests its text."""
        batch, content = self.contents[kind, number]
        text = tested(content, self.opened(batch, content, sealing_role(kind, number)))
        self.texts[kind, number] = text
        return text

    def opened(self, batch, record, role):
        return opened_with(self.keys[role], batch, record)

    def folders(self):
        """Each named folder, ascending, with its path."""
        for folder in sorted(self.rights.named):
            names = [self.names[one] for one in (folder, *self.state.ancestors(folder))]
            yield folder, b"/" + b"/".join(names[-2::-1])

    def files(self, paths):
        """Each allowed file in a folder that has one of these paths, or in any for None, with its path and its bytes."""
        above = {folder: path for folder, path in self.folders() if paths is None or path in paths}
        for number in sorted(self.rights.files):
            home = self.state.homes[number]
            if home in above:
                self.follow(*((9, home) if home in self.rights.allowed else (10, CLEARANCES + number)), number)
                text = self.text(BYTES_OF_FILE, number)
                yield above[home].rstrip(b"/") + b"/" + text[1:1 + text[0]], text[1 + text[0]:]

    def folder_line(self, folder, path):
        return (b"folder " if folder in self.rights.allowed else b"ancestor ") + path + b"\n"

    def list(self):
        lines = [(path, self.folder_line(folder, path)) for folder, path in self.folders()]
        lines += [(path, file_line(path, data)) for path, data in self.files(None)]
        return b"".join(line for _, line in sorted(lines, key=lambda row: row[0]))

    def open(self, path):
        found = [self.folder_line(folder, path) for folder, its_path in self.folders() if its_path == path]
        if not found and is_path(path) and path != b"/":
            above = path[:path.rindex(b"/")] or b"/"
            found = [file_line(path, data) for its_path, data in list(self.files([above])) if its_path == path]
        if not found:
            raise unseen()
        return found[0]


def opened_with(key, batch, record):
    """What a record of this batch holds for who has the key."""
    if mac(mac(key, b"\2"), record.header, record.cipher) != record.tag:
        raise tampered(batch, record.at)
    return xored(mac(key, b"\1"), record.head.nonce, record.cipher)


def tested(content, text):
    """The text of this content, if it has the form of its kind."""
    kind, (number,) = content.head[:2]
    if kind == NAME_OF_FOLDER and (text != b"" if number == 1 else not NAME.fullmatch(text)) or kind == BYTES_OF_FILE and not is_file(text):
        raise damaged(content.at)
    return text


def file_line(path, data):
    return b"file " + path + b" " + data.hex().encode() + b"\n"


def is_path(path):
    return path == b"/" or path[:1] == b"/" and all(NAME.fullmatch(name) for name in path[1:].split(b"/"))


def is_file(text):
    length = text[0]
    return 1 <= length < len(text) and NAME.fullmatch(text[1:1 + length]) and len(text) - 1 - length <= FILE_LIMIT


# who stays

class Session:
    """A reader's session of `serve`: so many batches of the log are pinned, and so many were read. Each reply is over the store's bytes as
    they are then."""

    def __init__(self, image, bundle):
        self.bundle, self.pinned, self.read, self.last = bundle, published(image), 0, before_the_log(image)

    def step(self, image):
        if self.read < self.pinned:
            row = next_batch(image, self.last, None)
            if row is None:
                raise damaged(self.last.end)
            self.last, self.read = row[0], self.read + 1
        return b"read %d of %d\n" % (self.read, self.pinned)

    def pin(self, image):
        self.pinned = max(self.pinned, published(image))
        return b"pinned %d\n" % self.pinned

    def show(self, image):
        """What the pinned batches show, which are the log of bytes that end behind them with a closed gate."""
        if self.read < self.pinned:
            return b"refused not-read\n"
        status, printed, _ = answer = answers(image[:self.last.end - 1] + b"\0", self.bundle, [None])[0]
        return {0: printed + b"end\n", 11: b"refused wrong-key\n", 15: b"refused no-holder\n"}.get(status, answer)


class Sessions:
    """All sessions of a `serve`."""

    def __init__(self):
        self.all = []

    def reply(self, line, image):
        """The reply to a session's line over these bytes; an answer, with its status, where `serve` ends there."""
        word, number, *key = line.split(b" ")
        try:
            if word == b"session":
                return self.begin(image, Bundle(int(number), bytes.fromhex(key[0].decode())))
            session = self.all[int(number) - 1:int(number)]
            return getattr(session[0], word.decode())(image) if session else b"refused no-session\n"
        except Fault as fault:
            return fault.answer

    def begin(self, image, bundle):
        if len(self.all) == SESSIONS:
            return b"refused too-many\n"
        self.all.append(Session(image, bundle))
        return b"session %d of %d\n" % (len(self.all), self.all[-1].pinned)


def published(image):
    """How many batches are published, for who has no owner's key."""
    test_header(image, None)
    return len(log(image, None))


# what an audit opens

class Audit:
    """All that right links lead to from a key, and the faults of the records that are bad under what they lead to."""

    def __init__(self, payloads, own):
        self.keys, self.faults, self.lines = {own}, [], []
        self.texts = set()  # the names and files that it shows, each with its kind and id
        links, beyond = defaultdict(list), [own]
        for batch, payload in payloads:
            for link in payload.links:
                links[link.head.ids[0], link.head.serials[0]].append((batch.number, link))
        while beyond:
            key = beyond.pop()
            for batch, link in links[key.id, key.serial]:
                self.noting_faults(self.follow, batch, link, key, beyond)
        self.known = defaultdict(list)
        for key in self.keys:
            self.known[key.id, key.serial].append(key)
        for batch, payload in payloads:
            for content in payload.contents:
                self.see(batch.number, content)

    def noting_faults(self, step, *given):
        try:
            step(*given)
        except Fault as fault:
            self.faults.append(fault.answer)

    def follow(self, batch, link, source, beyond):
        found = Key(link.head.ids[1], link.head.serials[1], opened_with(source.bytes, batch, link))
        if found not in self.keys:
            self.keys.add(found)
            beyond.append(found)

    def see(self, batch, content):
        kind, (number,), (serial,) = content.head[:3]
        for key in self.known[0 if kind == KEY_OF_HOLDER else number, serial]:
            self.noting_faults(self.open, batch, content, key)

    def open(self, batch, content, key):
        kind, (number,) = content.head[:2]
        text = tested(content, opened_with(key.bytes, batch, content))
        if kind != KEY_OF_HOLDER:
            self.texts.add((kind, number, text))
        if kind == NAME_OF_FOLDER:
            self.lines.append(b"folder %d %d %s\n" % (batch, number, text))
        elif kind == BYTES_OF_FILE:
            name, data = text[1:1 + text[0]], text[1 + text[0]:]
            self.lines.append(b"file %d %d %s %s\n" % (batch, number, name, data.hex().encode()))


# the answers

def answers(image, bundle, asked):
    """For each of these, None to list or a path to open: the status, what is printed, what is said."""
    try:
        reading = read(image, bundle)
    except Fault as fault:
        return [fault.answer for _ in asked]
    return [answer(reading, path) for path in asked]


def read(image, bundle):
    return Reading(*admitted(image, bundle)[1:], bundle)


def admitted(image, bundle):
    """The batches of the log with their payloads, and what they make, for a key that is one of the store."""
    owner = None if bundle.holder else bundle.key
    test_header(image, owner)
    batches = log(image, owner)
    state, links, contents = followed(batches)
    if bundle.holder > len(state.checks):
        raise no_holder(len(state.checks))
    if bundle.holder and mac(bundle.key, b"\4") != state.checks[bundle.holder - 1]:
        raise wrong_key()
    return batches, state, links, contents


def audits(image, bundle):
    """Each answer that `audit` may give: with several bad records any one's."""
    return audits_with_texts(image, bundle)[0]


def audits_with_texts(image, bundle):
    """The same, and the names and files that it shows, each with its kind and id."""
    try:
        batches, state, _, _ = admitted(image, bundle)
    except Fault as fault:
        return frozenset([fault.answer]), set()
    serial = state.serials[HOLDER, bundle.holder] if bundle.holder else 0
    audit = Audit([row for row in batches if row[1] is not None], Key(bundle.holder, serial, bundle.key))
    return frozenset(audit.faults or [(0, b"".join(audit.lines), b"")]), audit.texts


def answer(reading, path):
    try:
        return 0, reading.list() if path is None else reading.open(path), b""
    except Fault as fault:
        return fault.answer


def opened_to_write(image, owner, wanted=2):
    """What a command answers that opens the store for writing and asks for this version, and the bytes that the opening leaves."""
    left = image
    try:
        test_header(image, owner)
        batches = log(image, owner, writing=True)
        left = with_slots(image, owner, [batch for batch, _ in batches])
        state, links, contents = followed(batches)
        if 1 not in state.parents:
            raise damaged(HEADER)
        reading = Reading(state, links, contents, Bundle(0, owner))
        reading.list()
        for number in range(1, len(state.checks) + 1):
            reading.text(KEY_OF_HOLDER, number)
        reading.open_clearances()
        if state.version != wanted:
            raise not_wanted(wanted)
    except Fault as fault:
        return fault.answer, left
    return (0, b"", b""), left


def version(image, owner):
    """The version of a store that opens for writing."""
    return followed(log(image, owner, writing=True))[0].version


def with_slots(image, owner, batches):
    left = bytearray(image)
    for batch in batches:
        left[batch.at + 13:batch.at + 45] = veil(owner, batch)
    return bytes(left)


def read_bundle(typed):
    """The bundle whose line is the whole input."""
    line, _, rest = typed.partition(b"\n")
    form = re.fullmatch(rb"(?:owner|holder ([1-9][0-9]{0,9})) ([0-9a-fA-F]{64})", line)
    if not form or int(form[1] or 0) >= 1 << 32:
        raise bad_line(1)
    if rest:
        raise bad_line(2)
    return Bundle(int(form[1] or 0), bytes.fromhex(form[2].decode()))


def bundle_line(bundle):
    """The line that `make` or a `holder` line printed for this key."""
    return (b"holder %d " % bundle.holder if bundle.holder else b"owner ") + bundle.key.hex().encode() + b"\n"


def main(store, command, path=None):
    try:
        bundle = read_bundle(sys.stdin.buffer.read())
        with open(store, "rb") as file:
            image = file.read()
        asked = None if path is None else os.fsencode(path)
        status, printed, said = min(audits(image, bundle)) if command == "audit" else answers(image, bundle, [asked])[0]
    except FileNotFoundError:
        status, printed, said = not_a_store().answer
    except Fault as fault:
        status, printed, said = fault.answer
    sys.stdout.buffer.write(printed)
    sys.stderr.buffer.write(said)
    return status


if __name__ == "__main__":
    if (len(sys.argv), *sys.argv[2:3]) not in ((3, "list"), (4, "open"), (3, "audit")):
        sys.exit(__doc__)
    sys.exit(main(*sys.argv[1:]))
