"""The index of a folder: modes, times of change and links, which a store has no place for, in its file `-.index`.

    cryptree-folder index 1
    folder 755 1730000000123456789
    file 644 1730000000123456789 NAME
    link 777 1730000000123456789 NAME TARGET

One line each for the folder itself, and for each file and link in it, by names; names and targets are escaped as names.py says. The mode
has three octal digits, the time is in nanoseconds. Where there is no index, or no line for a file, mode and time are nobody's; a line of
a file that isn't there says nothing, and neither does one of a link where a file or folder has its name.
"""
import re

from folder_store.faults import Fault, Hostile
from folder_store.names import escaped, real_name, pieces, unescaped
from folder_store.tree import FILE, FOLDER, LINK, Node

HEAD = "cryptree-folder index "
STAMP = r"([0-7]{3}) (-?[0-9]{1,19})"
LINE = re.compile(rf"(?:folder {STAMP}|file {STAMP} ([\w.-]+)|link {STAMP} ([\w.-]+) ([\w.-]+))", re.ASCII)


def stamp(node: Node) -> str:
    return f"{node.kind} {node.mode:03o} {node.time}"


def index_of(folder: Node) -> bytes:
    """The bytes of a folder's index: of what in it has a mode and a time, and of each link."""
    lines = [HEAD + "1"] + [stamp(folder)] * (folder.time is not None)
    for name, node in sorted(folder.inside.items()):
        if node.kind == FILE and node.time is not None:
            lines.append(f"{stamp(node)} {escaped(name)}")
        if node.kind == LINK:
            lines.append(f"{stamp(node)} {escaped(name)} {escaped(node.data)}")
    return "".join(line + "\n" for line in lines).encode()


def read_index(data: bytes, folder: Node) -> None:
    """Brings a folder's modes, times and links in from its index; Hostile where `index_of` doesn't write such a one."""
    head, *lines = data.decode("latin-1").split("\n")
    if re.fullmatch(HEAD + "[1-9][0-9]{0,8}", head) and head != HEAD + "1":
        raise Fault("an index in the store is of a later version: read it with a newer cryptree-folder")
    if head != HEAD + "1" or not lines or lines.pop() != "":
        raise Hostile("an index in the store isn't one that cryptree-folder writes: nothing was taken from it")
    seen = set()
    for line in lines:
        form = LINE.fullmatch(line)
        if not form:
            raise Hostile(f"an index in the store has a line that cryptree-folder doesn't write: {line[:80]!r}")
        take(form, folder, seen)


def take(form: re.Match, folder: Node, seen: set[bytes]) -> None:
    """Brings one line in; `seen` has the names of the lines before it."""
    mode, time = next((mode, time) for mode, time in (form.group(1, 2), form.group(3, 4), form.group(6, 7)) if mode)
    text, target = form[5] or form[8], form[9]
    name = real_name(text, "", pieces(unescaped(text))) if text else b""
    if name in seen:
        raise Hostile(f"an index in the store has two lines of {name!r}")
    seen.add(name)
    if target and name not in folder.inside:
        data = unescaped(target)
        if not data or b"\0" in data or len(data) > 4095:
            raise Hostile(f"an index in the store has a link that leads nowhere: {name!r}")
        folder.inside[name] = Node(LINK, int(mode, 8), int(time), data)
        return
    node = folder if not text else folder.inside.get(name)
    if node and not target and node.kind == (FILE if text else FOLDER):
        node.mode, node.time = int(mode, 8), int(time)
