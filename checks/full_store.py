"""A store of as many bytes as one may have, in a file that takes little room on the disk: its batches' masked texts are zeros, which a reader
never opens, since a later content stands in their place."""
import os

from key_step import REWRITE
from store_limits import FILE_LIMIT
from store_reader import be32, mac, owner_tag, stream
from store_writer import COMMAND, Writer, be64
from worked_sessions import SEED

FRAME, REWRITTEN = 110, 72 + 1  # the bytes of a batch beside its payload, and of a payload that writes no bytes to a file of this name
MORE = bytes(1 << 13)


class FullStore(Writer):
    """A store with a folder, a file in it, what these lines make, and that file written over and over, so that the log ends at this place."""

    def __init__(self, folder, end, version=1, lines=()):
        super().__init__(SEED, version)
        self.session(MORE, ["mkdir /a", "write /a/x 00", *lines])
        self.path, small = os.path.join(folder, "full"), FRAME + REWRITTEN + 1
        with open(self.path, "wb") as self.file:
            self.file.write(self.image)
            while self.file.tell() < end - small:
                left = end - small - self.file.tell() - FRAME - REWRITTEN
                self.fill(min(left, FILE_LIMIT) if left <= FILE_LIMIT or left - FILE_LIMIT > FRAME + REWRITTEN else left // 2)
            self.image = b"\0"
            self.apply("write /a/x 01")
            self.file.seek(-1, os.SEEK_CUR)
            self.file.write(self.image)

    def fill(self, size):
        """A batch that writes so many bytes to the file, of which none is ever opened."""
        _, (head,) = self.state.take(REWRITE, [1])
        header = bytes([2, head.kind]) + be32(1) + be64(head.serials[0]) + be64(head.nonce) + be32(2 + size)
        begin = bytes([REWRITE]) + be32(1) + be32(0) + be32(1) + header
        self.number += 1
        key = mac(self.owner, b"\3", be32(self.epoch), be32(self.number))
        masked = bytes(one ^ other for one, other in zip(begin, stream(key, 0, 1))) + bytes(2 + size + 32)
        batch = bytes([COMMAND]) + be32(self.number) + be32(self.epoch) + be32(len(masked))
        check = mac(key, masked)
        self.tag = owner_tag(self.owner, self.tag, batch, masked, check)
        self.file.seek(-1, os.SEEK_CUR)
        self.file.write(b"\1" + batch + key + masked[:len(begin)])
        self.file.seek(len(masked) - len(begin), os.SEEK_CUR)
        self.file.write(check + self.tag + b"\0")
