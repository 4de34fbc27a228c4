"""What a store lists, as a tree: first of its own names, then of real ones. A listing that leads elsewhere is refused whole."""
import re

from folder_store import limits
from folder_store.faults import Fault, Hostile
from folder_store.index import read_index
from folder_store.names import HALF, INDEX, MORE, PARTS, pieces, real_name, real_names, shown
from folder_store.tree import FILE, FOLDER, Node

PATH = re.compile(rf"/|(?:/(?!\.\.?(?:/|\Z))[A-Za-z0-9._-]{{1,{limits.NAME}}})+")


class CoreFolder(dict):
    """What a folder of a store holds by the store's names: each a CoreFolder or a file's bytes."""

    def __init__(self, named_only: bool = False):
        super().__init__()
        self.named_only = named_only


def core_tree(lines) -> CoreFolder:
    """The root with all that these lines of a listing have; Hostile where the program doesn't list so. Without lines nothing is opened."""
    root, before = CoreFolder(named_only=True), ""
    for kind, path, data in lines:
        if not PATH.fullmatch(path) or path <= before or (path == "/" and kind == "file"):
            raise Hostile(f"a listing has {shown(path)[:80]}, which is no path, or not where it has to be: nothing of it was taken")
        before, entry = path, data if kind == "file" else CoreFolder(kind == "ancestor")
        if path == "/":
            root = entry
            continue
        above, _, name = path.rpartition("/")
        place = core_at(root, above.split("/")[1:])
        if not isinstance(place, CoreFolder):
            raise Hostile(f"a listing has {path}, and no folder around it: nothing of it was taken")
        place[name] = entry
    return root


def core_at(root: CoreFolder, names: list[str]) -> CoreFolder | bytes | None:
    """What has the path of these names, None where nothing has."""
    place = root
    for name in names:
        place = place.get(name) if isinstance(place, CoreFolder) else None
    return place


def real_folder(core: CoreFolder) -> Node:
    """A folder by real names, with modes, times and links from the indexes; Hostile where `put` doesn't write it so."""
    node, index = Node(FOLDER, named_only=core.named_only), None
    for name, entry in core.items():
        if name in (INDEX, INDEX + PARTS):
            index = whole(entry, name)
        elif name == INDEX + HALF:
            node.half = True
        else:
            take(node, entry, "", [name])
    if index is not None:
        read_index(index, node)
    return node


def take(node: Node, entry: CoreFolder | bytes, text: str, inside: list[str]) -> None:
    """Brings in what stands under these names, one inside the other; the text is what the ones before the last stand for."""
    is_folder = isinstance(entry, CoreFolder)
    mark = next((mark for mark in (MORE, PARTS, HALF) if inside[-1].endswith(mark) and is_folder), "")
    text += inside[-1].removesuffix(mark)
    if mark == MORE:
        for name, further in entry.items():
            take(node, further, text, [*inside, name])
        return
    name = real_name(text, PARTS if mark else "", [*inside[:-1], inside[-1].removesuffix(mark) + (PARTS if mark else "")])
    if name in node.inside:
        raise Hostile(f"two things in the store are {shown(name)}: nothing of them was taken")
    if is_folder and not mark:
        node.inside[name] = real_folder(entry)
    else:
        node.inside[name] = Node(FILE, data=b"" if mark == HALF else whole(entry, inside[-1]), half=mark == HALF)


def whole(entry: CoreFolder | bytes, name: str) -> bytes:
    """A file's bytes, of its parts where it has some."""
    if isinstance(entry, bytes):
        return entry
    if list(entry) != [part_name(number) for number in range(len(entry))] or not all(isinstance(part, bytes) for part in entry.values()):
        raise Hostile(f"the parts of {shown(name)} aren't those of one file: nothing of it was taken")
    return b"".join(entry.values())


def part_name(number: int) -> str:
    return f"{number:04}"


def node_at(lines, typed: str) -> Node:
    """What a key that got these lines sees at the real path that somebody typed; a Fault where it sees nothing."""
    names, place = real_names(typed), core_tree(lines)
    for name in names[:-1]:
        place = core_at(place, pieces(name)) if isinstance(place, CoreFolder) else None
    entry = core_at(place, pieces(names[-1])) if names else place
    if isinstance(entry, CoreFolder) and (names or entry or not entry.named_only):
        return real_folder(entry)
    if names and isinstance(place, CoreFolder) and names[-1] in (around := real_folder(place)).inside:
        return around.inside[names[-1]]
    raise Fault(f"nothing that this key opens has the path {shown(typed)}: `ls -R /` lists all that it opens")
