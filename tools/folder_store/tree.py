"""A folder as a tree: what is read from a disk, put into a store, listed, and written to a disk again."""
import dataclasses

FOLDER, FILE, LINK = "folder", "file", "link"


@dataclasses.dataclass
class Node:
    """A folder, file or link. `mode` has nine bits, `time` is the time of change in nanoseconds; both None where nobody knows them.

    `data` are a file's bytes or where a link points to, `inside` is what a folder has, by real names. A folder is `named_only` where a
    key opens its name, and something further down, but not the folder; what a `put` was writing as it was stopped is `half`: a
    file, or a folder whose index it was.
    """

    kind: str
    mode: int | None = None
    time: int | None = None
    data: bytes = b""
    inside: dict[bytes, "Node"] = dataclasses.field(default_factory=dict)
    named_only: bool = False
    half: bool = False


def walk(node: Node, path: tuple[bytes, ...] = ()):
    """The path and node of all in a tree, itself first, each folder before what is in it, by names."""
    yield path, node
    for name in sorted(node.inside):
        yield from walk(node.inside[name], (*path, name))
