"""Changed copies of a store's bytes, as whoever has the disk could make them, or whoever has the owner's key."""
import itertools
import random
from collections import defaultdict, namedtuple

import store_reader
from key_step import BYTES_OF_FILE, KEY_OF_HOLDER, NAME_OF_FOLDER, sealing_role
from store_limits import FILE_LIMIT
from store_reader import FIELDS, Bundle, be32, log, mac, owner_tag, veil, xored

HEADS_TURNED = 40  # fields of notes and heads of a store of which some copies are made, drawn from a fixed seed
HEADER_PLACES = (0, 7, 8, 9, 40, 41)
WAYS = tuple(itertools.product((False, True), repeat=2))  # are checks made anew, are owner tags
NO_NAMES = (b".", b"..", b"/", b" ", b"\xff", b"a" * 63 + b"/")
NO_FILES = (b"\0x", b"\1", b"\x41" + b"x" * 65, b"\2x", b"\1/", b"\2..", b"\1x" + bytes(FILE_LIMIT + 1))

# what was changed, the bytes, and the texts of records with a right tag that nobody wrote: each with its kind and id
Copy = namedtuple("Copy", "what image forged", defaults=(frozenset(),))


def batches(image, owner):
    """The batches of a store's log with their payloads, as for writing."""
    return log(image, owner, writing=True)


def turned(image, at):
    """The image with the lowest bit of this byte turned."""
    return image[:at] + bytes([image[at] ^ 1]) + image[at + 1:]


def made_anew(image, owner, layout, checks, tags):
    """The image with checks, or owner tags, or both made anew in the batches of this layout: a check with what stands in its slot."""
    image, before = bytearray(image), bytes(image[9:41])
    for batch, _ in layout:
        head, check, tag = batch.at, batch.end - 65, batch.end - 33
        masked = bytes(image[head + 45:check])
        if checks:
            image[check:tag] = mac(bytes(image[head + 13:head + 45]), masked)
        if tags:
            image[tag:tag + 32] = owner_tag(owner, before, bytes(image[head:head + 13]), masked, bytes(image[check:tag]))
        before = bytes(image[tag:tag + 32])
    return bytes(image)


def plain(image, owner):
    """What `rebuilt` needs of each batch: its type, its epoch, its payload without a mask."""
    return [(batch.type, batch.epoch, xored(veil(owner, batch), 0, batch.masked)) for batch, _ in batches(image, owner)]


def rebuilt(batches_in_order, owner):
    """The image of these batches, each numbered, masked, published and tagged."""
    image, before = b"CRYPTREE\1" + mac(owner, b"\4"), mac(owner, b"\4")
    for number, (kind, epoch, payload) in enumerate(batches_in_order, 1):
        key = mac(owner, b"\3", be32(epoch), be32(number))
        head, masked = bytes([kind]) + be32(number) + be32(epoch) + be32(len(payload)), xored(key, 0, payload)
        check = mac(key, masked)
        before = owner_tag(owner, before, head, masked, check)
        image += b"\1" + head + key + masked + check + before
    return image + b"\0"


def sealed(key, content, text):
    """The content's record with another text."""
    header = content.header[:22] + be32(len(text))
    cipher = xored(mac(key, b"\1"), content.head.nonce, text)
    return header + cipher + mac(mac(key, b"\2"), header, cipher)


def texts(image, bundle):
    """The texts that a key is shown, each with its kind and id: none where something of them can't be opened."""
    try:
        reading = store_reader.read(image, bundle)
        reading.list()
    except store_reader.Fault:
        return set()
    return {(*named, text) for named, text in reading.texts.items()}


class Original:
    """A store that nobody changed: its bytes, its owner's key, and where what stands in it. Copies of it are made from that: all of them,
    or of each kind some."""

    def __init__(self, image, owner, whole=False):
        self.image, self.owner, self.whole = image, owner, whole
        self.layout, self.log = batches(image, owner), plain(image, owner)

    def ends_behind(self, batch):
        return self.image[:batch.end - 1] + b"\0" + self.image[batch.end:]

    def written(self):
        """Each text that was ever written, with its kind and id: what the owner was shown behind one batch or another."""
        return set().union(*(texts(self.ends_behind(batch), Bundle(0, self.owner)) for batch, _ in self.layout))

    def records(self):
        """The links and the contents of all batches, each with its batch's place in the list of them and its own place in the payload."""
        for n, (batch, payload) in enumerate(self.layout):
            for record in payload.links + payload.contents if payload else ():
                yield n, record.at - batch.at - 45, record

    def without(self, left_out):
        return rebuilt([batch for n, batch in enumerate(self.log) if n not in left_out], self.owner)

    def with_parts(self, *parts):
        """The store with other bytes in payloads: each part is a batch's place, the place and the length of what goes, and what comes."""
        changed = list(self.log)
        for n, at, length, part in parts:
            kind, epoch, payload = changed[n]
            changed[n] = kind, epoch, payload[:at] + part + payload[at + length:]
        return rebuilt(changed, self.owner)

    def with_either_tags(self, what, *parts):
        """The store with other parts, checks and owner tags made anew; of a whole one also with the tags that it had, as whoever has the
        disk alone could make it."""
        image = self.with_parts(*parts)
        yield Copy(what, image)
        if self.whole and len(image) == len(self.image):
            image = bytearray(image)
            for batch, _ in self.layout:
                image[batch.end - 33:batch.end - 1] = batch.tag
            yield Copy(f"{what}, with the owner tags that it had", bytes(image))

    def with_bytes_turned(self):
        """One byte turned: of the fields of frames, of all that is sealed, and of notes and heads."""
        chosen = self.layout if self.whole else [self.layout[0], self.layout[2], self.layout[-1]]
        frames = [(f"header, byte {at}", at) for at in HEADER_PLACES] + [place for batch, _ in chosen for place in frame_places(batch)]
        fields = [place for batch, payload in self.layout if payload for place in payload_places(batch, payload)]
        heads = [place for place in fields if not place[2]]
        if not self.whole:
            heads = random.Random(len(self.image)).sample(heads, HEADS_TURNED)
        cases = [(*place, *way) for place in frames for way in WAYS]
        cases += [(*place, True, tags) for *place, is_sealed in fields for tags in (False, True) if is_sealed]
        for what, at, checks, tags in cases + [(*place, True, True) for *place, _ in heads]:
            image = made_anew(turned(self.image, at), self.owner, self.layout, checks, tags)
            yield Copy(f"{what}, checks {checks}, tags {tags}", image)

    def with_other_ends(self):
        """Its end elsewhere, or a slot that is empty."""
        image = self.image
        for batch, _ in self.layout:
            for length in (batch.at, batch.at + 109, batch.end - 1):
                yield Copy(f"cut to {length} bytes", image[:length])
            yield Copy(f"batch {batch.number}, slot emptied", image[:batch.at + 13] + bytes(32) + image[batch.at + 45:])
            yield Copy(f"ends behind batch {batch.number}", self.ends_behind(batch))
        for length in (0, 1, 9, 41, 42, len(image) - 1):
            yield Copy(f"cut to {length} bytes", image[:length])
        for more in (b"\0" * 200, b"\1" * 200):
            yield Copy(f"followed by {more[:1]!r}", image + more)
            yield Copy(f"its gate open, followed by {more[:1]!r}", image[:-1] + b"\1" + more)

    def with_batches_moved(self):
        """Each batch left out, or twice; two exchanged; each once more at the end, in the last epoch; and as bytes, with the numbers and
        tags that they had."""
        log, spans, epoch = self.log, [self.image[batch.at - 1:batch.end - 1] for batch, _ in self.layout], self.log[-1][1]
        for n, (kind, _, payload) in enumerate(log):
            orders = {"left out": [*range(n), *range(n + 1, len(log))], "twice": [*range(n + 1), *range(n, len(log))]}
            for how, order in orders.items():
                yield Copy(f"batch {n + 1} {how}", rebuilt([log[one] for one in order], self.owner))
                if self.whole:
                    yield Copy(f"batch {n + 1} {how}, as bytes", self.image[:41] + b"".join(spans[one] for one in order) + b"\0")
            if self.whole:
                yield Copy(f"batch {n + 1} once more at the end", rebuilt([*log, (kind, epoch + (kind == 2), payload)], self.owner))
                yield Copy(f"batch {n + 1} once more at the end, as bytes", self.image[:-1] + spans[n] + b"\0")
        for one, other in itertools.combinations(range(len(log)), 2):
            if self.whole or other == one + 1:
                order = list(range(len(log)))
                order[one], order[other] = other, one
                what = f"batches {one + 1} and {other + 1} exchanged"
                yield Copy(what, rebuilt([log[n] for n in order], self.owner))
                if self.whole:
                    yield Copy(f"{what}, as bytes", self.image[:41] + b"".join(spans[n] for n in order) + b"\0")

    def with_links_exchanged(self):
        """Two links that follow one another in the log exchanged, or the second in the place of the first too; two of one payload; and the
        same with what is sealed alone, under the heads that are due."""
        links = [(n, at, record) for n, at, record in self.records() if len(record.head.ids) == 2]
        for first, second in itertools.combinations(range(len(links)), 2):
            (here, at, link), (there, its_at, other) = links[first], links[second]
            if second != first + 1 and not (self.whole and here == there):
                continue
            for what, skipped in (("link", 0), ("what is sealed in link", 34))[:1 + self.whole]:
                parts = [(here, at + skipped, 98 - skipped, bytes_of(other)[skipped:]),
                         (there, its_at + skipped, 98 - skipped, bytes_of(link)[skipped:])]
                names = f"{what} {at} of batch {here + 1}", f"{its_at} of batch {there + 1}"
                yield from self.with_either_tags(" and ".join(names) + " exchanged", *parts)
                if second == first + 1:
                    yield from self.with_either_tags(" is ".join(names), parts[0])

    def with_older_records(self):
        """Each record, and what is sealed in it alone, in the place of a later one of its edge, or of its text."""
        before = defaultdict(list)
        for n, at, record in self.records():
            name = record.head.kind, record.head.ids
            for old in before[name]:
                cut = len(record.header) - 4 * (len(name[1]) == 1)  # a content's length goes with its text
                length, place = len(bytes_of(record)), f"record {name} of batch {n + 1}, nonce {old.head.nonce}"
                yield from self.with_either_tags(f"{place}, is older", (n, at, length, bytes_of(old)))
                yield from self.with_either_tags(f"{place}, is older under its head", (n, at + cut, length - cut, bytes_of(old)[cut:]))
            before[name].append(record)

    def with_other_texts(self):
        """Each last content of a name, a file or a holder's key with another text, sealed with the right key: texts that are none, and one
        that is; and the check of a holder's key changed."""
        _, _, contents = store_reader.followed(self.layout)
        reading = store_reader.read(self.image, Bundle(0, self.owner))
        reading.list()
        others = {NAME_OF_FOLDER: (*NO_NAMES, b"forged"), BYTES_OF_FILE: (*NO_FILES, b"\6forged\2"), KEY_OF_HOLDER: (bytes(32),)}
        for number, content in contents.values():
            name = content.head.kind, *content.head.ids
            for text in others[name[0]] if name != (NAME_OF_FOLDER, 1) else (b"a",):
                at = content.at - self.layout[number - 1][0].at - 45
                record = sealed(reading.keys[sealing_role(*name)], content, text)
                image = self.with_parts((number - 1, at, len(bytes_of(content)), record))
                yield Copy(f"content {name} is {text[:70]!r}", image, frozenset([(*name, text)]))
        for n, (_, payload) in enumerate(self.layout):
            if payload and len(payload.fields) == 2 and isinstance(payload.fields[1], bytes):
                yield Copy(f"check of holder {payload.fields[0]}", self.with_parts((n, 5, 32, bytes(32))))


def bytes_of(record):
    return record.header + record.cipher + record.tag


def frame_places(batch):
    """A byte of each field of a batch but its payload."""
    offsets = {"type": 0, "number": 4, "epoch": 8, "length, its first byte": 9, "length, its last": 12, "slot": 13}
    offsets |= {name: batch.end - batch.at - back for name, back in (("check", 65), ("owner tag", 2), ("next gate", 1))}
    return [(f"batch {batch.number}, {name}", batch.at + offset) for name, offset in offsets.items()]


def payload_places(batch, payload):
    """The last byte of each field of a payload, and whether the field is sealed."""
    fields = [(batch.at + 45, size, False) for size in itertools.accumulate((1, *FIELDS.get(payload.code, (4,)), 4, 4))]
    for link in payload.links:
        fields += [(link.at, size, size > 34) for size in itertools.accumulate((1, 1, 4, 4, 8, 8, 8, 32, 32))]
    for content in payload.contents:
        fields += [(content.at, size, size > 26) for size in itertools.accumulate((1, 1, 4, 8, 8, 4, len(content.cipher), 32))]
    return [(f"batch {batch.number}, payload at {at + size - 1}", at + size - 1, is_sealed) for at, size, is_sealed in fields]
