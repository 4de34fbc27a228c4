"""A folder of real files, read as a tree. What a store can't keep of it is told, with its cause."""
import os
import re
import stat

from folder_store.faults import Fault
from folder_store.limits import DEPTH, STORE
from folder_store.names import PART_SIZE, PARTS, pieces, shown
from folder_store.progress import Progress
from folder_store.tree import FILE, FOLDER, LINK, Node

KEY_LINE = re.compile(rb"\s*(?:owner|holder [0-9]+) [0-9A-Fa-f]{64}\s*")
KINDS = ((stat.S_ISFIFO, "a fifo"), (stat.S_ISSOCK, "a socket"), (stat.S_ISCHR, "a device"), (stat.S_ISBLK, "a device"))


class Reader:
    """Reads a folder into `tree`, for a folder of a store with so many names in its path.

    `left_out` has each path that no store can keep, by names, with the cause.
    """

    def __init__(self, place: str, own_places: list[str], depth: int, with_keys: bool = False):
        if not os.path.isdir(place):
            raise Fault(f"{shown(place)} is no folder: put takes one")
        self.place, self.left_out, self.size, self.first_names, self.depth = os.fsencode(place), {}, 0, {}, depth
        self.with_keys = with_keys
        self.own = {(status.st_dev, status.st_ino) for status in map(os.stat, filter(os.path.exists, own_places))}
        with Progress(f"reading {shown(place)}") as self.progress:
            self.tree = self.folder((), os.stat(place))

    def folder(self, path, status) -> Node:
        node = Node(FOLDER, status.st_mode & 0o777, status.st_mtime_ns)
        for name in sorted(os.listdir(self.real(path))):
            inside = (*path, name)
            try:
                node.inside[name] = self.node(inside, os.lstat(self.real(inside)))
            except CanNotBeKept as cause:
                self.left_out[inside] = str(cause)
            except OSError as fault:
                self.left_out[inside] = f"can't be read ({fault.strerror})"
        return node

    def real(self, path) -> bytes:
        return os.path.join(self.place, *path)

    def node(self, path, status) -> Node:
        """What stands there, or CanNotBeKept."""
        for is_kind, kind in KINDS:
            if is_kind(status.st_mode):
                raise CanNotBeKept(f"is {kind}")
        if (status.st_dev, status.st_ino) in self.own:
            raise CanNotBeKept("is the store itself, or has its keys")
        if stat.S_ISLNK(status.st_mode):
            return Node(LINK, 0o777, status.st_mtime_ns, os.readlink(self.real(path)))
        self.see_to_depth(path, stat.S_ISDIR(status.st_mode), status.st_size > PART_SIZE)
        if stat.S_ISDIR(status.st_mode):
            return self.folder(path, status)
        if status.st_nlink > 1:
            first = self.first_names.setdefault((status.st_dev, status.st_ino), path)
            if first != path:
                self.left_out[path] = f"is a hard link of {shown(b'/'.join(first))}, and can only be kept as a file of its own"
        return self.file(path)

    def see_to_depth(self, path, is_folder: bool, is_large: bool) -> None:
        """A folder needs room for its index, and a large file for its parts."""
        names = sum(len(pieces(name)) for name in path[:-1]) + len(pieces(path[-1], "" if is_folder or not is_large else PARTS))
        if self.depth + names + (is_folder or is_large) > DEPTH:
            raise CanNotBeKept(f"would have more than {DEPTH} names in its path")

    def file(self, path) -> Node:
        handle = os.open(self.real(path), os.O_RDONLY | os.O_NOFOLLOW | os.O_NONBLOCK | os.O_CLOEXEC)
        with open(handle, "rb") as file:
            status = os.fstat(handle)
            self.size += status.st_size
            if self.size > STORE:
                raise Fault(f"{shown(self.place)} has more than the {STORE:,} bytes of a store: put less, or in several stores")
            data = file.read()
            self.progress.done += 1
            after = os.fstat(handle)
        if (status.st_mtime_ns, len(data)) != (after.st_mtime_ns, after.st_size) or not stat.S_ISREG(status.st_mode):
            raise CanNotBeKept("was changed while it was read")
        if len(data) < 200 and KEY_LINE.fullmatch(data) and not self.with_keys:
            raise CanNotBeKept("is a key of a store, and is put only with --with-keys")
        return Node(FILE, status.st_mode & 0o777, status.st_mtime_ns, data)


class CanNotBeKept(Exception):
    """Why a store can't keep something."""


def overlay(wanted: Node, standing: Node, keep: bool, left_out, path: tuple[bytes, ...] = ()) -> None:
    """Adds to a wanted folder what stands in the store and isn't in the folder, but stays: what was left out, or, to keep, all."""
    for name, node in standing.inside.items():
        inside, here = (*path, name), wanted.inside.get(name)
        if here is None:
            if (keep or inside in left_out) and not (node.half and node.kind == FILE):
                wanted.inside[name] = node
        elif here.kind == node.kind == FOLDER:
            overlay(here, node, keep, left_out, inside)
        elif keep and node.kind == FOLDER:
            raise Fault(f"{shown(b'/'.join(inside))} is a folder in the store and a {here.kind} here: put it without --keep")
