"""Writes a store of either version as docs/FORMAT.md says it, from given random bytes: a second writer beside the one that is proved, for
the values of docs/vectors.json, and for stores that the program reads and doesn't make. It takes accepted commands alone, and the
replacement of any holder, and shares the key step and the sealing with store_reader.py.
"""
from collections import namedtuple

from key_step import (BYTES_OF_FILE, CLEARANCES, DROP_FILE, DROP_FOLDER, GIVE, HOLDER, KEY_OF_HOLDER, NAME_FILE, NAME_FOLDER, NEW_FILE,
                      NEW_FOLDER, NEW_HOLDER, OWNER, REWRITE, ROOT, SHIFT_FILE, SHIFT_FOLDER, STRICT_ROOT, TAKE, UPGRADE, State,
                      sealing_role, source, target)
from store_reader import Bundle, Reading, be32, followed, log, mac, opened_to_write, owner_tag, xored

COMMAND, EPOCH = 1, 2  # the types of batches
ROOTS = {1: ROOT, 2: STRICT_ROOT}  # the note of `make`, by the version
Node = namedtuple("Node", "is_folder number")
Written = namedtuple("Written", "line place code keys links contents payload")  # a command's batch, its payload without a mask


class Writer:
    """A store of this version that was made of these random bytes, whose next session is still to begin."""

    def __init__(self, random, version):
        self.random = bytes(random)
        self.state, self.epoch, self.number, self.begun = State(), 0, 0, False
        self.owner = self.drawn(1)[0]
        self.keys = {(OWNER, 0): self.owner}
        self.names, self.texts = {}, {}  # of folders and files; what each file holds
        self.tag = mac(self.owner, b"\4")
        self.image = b"CRYPTREE\1" + self.tag + b"\0"
        self.batches = []
        self.begin_epoch()
        self.names[Node(True, 1)] = b""
        self.publish("make", ROOTS[version], [])

    @classmethod
    def over(cls, image, owner):
        """A writer over a store that was written before, whose next session is still to begin."""
        writer, batches = cls.__new__(cls), log(image, owner, writing=True)
        reading = Reading(*followed(batches), Bundle(0, owner))
        reading.list()
        holders = {(HOLDER, number): reading.text(KEY_OF_HOLDER, number) for number in range(1, len(reading.state.checks) + 1)}
        reading.open_clearances()
        files = {Node(False, number): text for (kind, number), text in reading.texts.items() if kind == BYTES_OF_FILE}
        last, _ = batches[-1]
        writer.state, writer.owner, writer.keys = reading.state, owner, reading.keys | holders
        writer.names = {Node(True, folder): name for folder, name in reading.names.items()}
        writer.names |= {node: text[1:1 + text[0]] for node, text in files.items()}
        writer.texts = {node: text[1 + text[0]:] for node, text in files.items()}
        writer.epoch, writer.number, writer.tag, writer.image = reading.state.epoch, last.number, last.tag, image[:last.end]
        writer.batches = []
        return writer

    def drawn(self, count):
        """So many keys, the next 32 bytes each."""
        pieces = [self.random[at:at + 32] for at in range(0, 32 * count, 32)]
        assert all(len(piece) == 32 for piece in pieces)
        self.random = self.random[32 * count:]
        return pieces

    def session(self, random, lines):
        """Applies these lines in a session of their own, and gives the replies, those to one line in one text. The random bytes are those of
        this session."""
        self.random, self.begun = bytes(random), False
        return [self.apply(line) for line in lines]

    def apply(self, line):
        word, *fields = line.split(" ")
        fields = [field.encode() for field in fields]
        return getattr(self, word)(line, *fields)

    # one method for each word of a command

    def holder(self, line):
        number = len(self.state.checks) + 1
        self.publish(line, NEW_HOLDER, [number, mac(self.random[:32], b"\4")])
        return f"holder {number} {self.keys[HOLDER, number].hex()}"

    def mkdir(self, line, path):
        node, above = Node(True, self.state.folders_made + 1), self.above(path)
        self.names[node] = last(path)
        return self.publish(line, NEW_FOLDER, [node.number, above.number])

    def write(self, line, path, text=b""):
        node = self.find(path)
        is_new = node is None
        if is_new:
            node = Node(False, self.state.files_made + 1)
            self.names[node] = last(path)
        self.texts[node] = bytes.fromhex(text.decode())
        if is_new:
            return self.publish(line, NEW_FILE, [node.number, self.above(path).number])
        return self.publish(line, REWRITE, [node.number])

    def rm(self, line, path):
        node = self.find(path)
        return self.publish(line, DROP_FOLDER if node.is_folder else DROP_FILE, [node.number])

    def rename(self, line, path, name):
        node = self.find(path)
        self.names[node] = name
        return self.publish(line, NAME_FOLDER if node.is_folder else NAME_FILE, [node.number])

    def move(self, line, path, into):
        node = self.find(path)
        return self.publish(line, SHIFT_FOLDER if node.is_folder else SHIFT_FILE, [node.number, self.find(into).number])

    def grant(self, line, number, path):
        return self.publish(line, GIVE, [int(number), granted_number(self.find(path))])

    def revoke(self, line, number, path):
        return self.publish(line, TAKE, [int(number), granted_number(self.find(path))])

    def replace(self, line, number):
        """A new holder, then all grants of the old one to it, and then the same taken back: by the numbers of what is granted, which no path
        is asked for."""
        old = int(number)
        if not 1 <= old <= len(self.state.checks):
            return "refused no-holder"
        granted = sorted(node for holder, node in self.state.grants if holder == old)
        replies, new = [self.holder(line)], len(self.state.checks)
        for code, holder in ((GIVE, new), (TAKE, old)):
            replies += [self.publish(line, code, [holder, node]) for node in granted]
        return "\n".join(replies)

    def upgrade(self, line):
        """No line of the program's, but a command of its own, in a session of its own."""
        return self.publish(line, UPGRADE, [])

    # paths

    def find(self, path):
        """The folder or file that a path finds."""
        node = Node(True, 1)
        for name in path.split(b"/")[1:] if path != b"/" else ():
            node = next((one for one in self.inside(node) if self.names[one] == name), None)
            if node is None:
                return None
        return node

    def inside(self, folder):
        folders = [Node(True, number) for number, parent in self.state.parents.items() if parent == folder.number]
        return folders + [Node(False, number) for number, home in self.state.homes.items() if home == folder.number]

    def above(self, path):
        return self.find(path[:path.rindex(b"/")] or b"/")

    # batches

    def begin_epoch(self):
        self.epoch += 1
        self.begun = True
        self.state.begin_epoch(self.epoch)
        self.append(EPOCH, b"")

    def publish(self, line, code, fields):
        """The command's step, with its keys drawn, and its batch, behind the session's first one."""
        if not self.begun:
            self.begin_epoch()
        given, heads = self.state.take(code, fields)
        keys = self.drawn(len(given))
        self.keys.update(zip(given, keys))
        records = [self.link(head) if len(head.ids) == 2 else self.content(head) for head in heads]
        links = sum(len(head.ids) == 2 for head in heads)
        payload = bytes([code]) + b"".join(field if isinstance(field, bytes) else be32(field) for field in fields)
        payload += be32(links) + be32(len(heads) - links) + b"".join(records)
        self.batches.append(Written(line, len(self.image), code, len(given), links, len(heads) - links, payload))
        self.append(COMMAND, payload)
        return "ok"

    def link(self, head):
        edge = head.kind, *head.ids
        header = bytes([1, head.kind]) + b"".join(map(be32, head.ids)) + b"".join(map(be64, (*head.serials, head.nonce)))
        return sealed(self.keys[source(edge)], header, head.nonce, self.keys[target(edge)])

    def content(self, head):
        (number,), text = head.ids, self.text(head)
        header = bytes([2, head.kind]) + be32(number) + be64(head.serials[0]) + be64(head.nonce) + be32(len(text))
        return sealed(self.keys[sealing_role(head.kind, number)], header, head.nonce, text)

    def text(self, head):
        if head.kind == KEY_OF_HOLDER:
            return self.keys[HOLDER, head.ids[0]]
        node = Node(head.kind != BYTES_OF_FILE, head.ids[0])
        name = self.names[node]
        return name if node.is_folder else bytes([len(name)]) + name + self.texts[node]

    def append(self, kind, payload):
        """A batch behind the last gate, as it stands once it is published."""
        self.number += 1
        key = mac(self.owner, b"\3", be32(self.epoch), be32(self.number))
        head, masked = bytes([kind]) + be32(self.number) + be32(self.epoch) + be32(len(payload)), xored(key, 0, payload)
        check = mac(key, masked)
        self.tag = owner_tag(self.owner, self.tag, head, masked, check)
        self.image = self.image[:-1] + b"\1" + head + key + masked + check + self.tag + b"\0"


def upgraded(image, owner, random):
    """What `upgrade` answers over a store of these bytes, with these random ones, and the bytes that it leaves."""
    answer, left = opened_to_write(image, owner, 1)
    if answer != (0, b"", b""):
        return answer, left
    writer = Writer.over(left, owner)
    writer.session(random, ["upgrade"])
    return (0, b"ok\n", b""), writer.image + left[len(writer.image):]


def granted_number(node):
    """How grants and their notes name a folder or a file."""
    return node.number if node.is_folder else CLEARANCES + node.number


def be64(number):
    return number.to_bytes(8, "big")


def last(path):
    return path[path.rindex(b"/") + 1:]


def sealed(key, header, nonce, text):
    """The record of a text that is sealed under a key with this header."""
    cipher = xored(mac(key, b"\1"), nonce, text)
    return header + cipher + mac(mac(key, b"\2"), header, cipher)
