"""What a store holds, or is to hold, by paths: folders, files, and files in parts, as the program's lines can make them."""
from folder_store.faults import Fault
from folder_store.index import index_of
from folder_store.limits import DEPTH
from folder_store.listed import CoreFolder, part_name
from folder_store.names import HALF, INDEX, PART_SIZE, PARTS, joined, pieces, shown
from folder_store.tree import FILE, FOLDER, Node

Unit = None | bytes | tuple[bytes, ...]     # a folder, a file, a file in parts


class Standing:
    """The units of a store at and below a path; `half` has the paths of files in parts that a stopped put left."""

    def __init__(self, root: CoreFolder, names: list[str]):
        self.units: dict[str, Unit] = {}
        self.half: set[str] = set()
        place = root
        for depth, name in enumerate(names):
            place = place.get(name)
            if not isinstance(place, CoreFolder):
                return
            self.units[joined(names[:depth + 1])] = None
        self.add(place, "" if not names else joined(names))

    def add(self, folder: CoreFolder, path: str) -> None:
        for name, entry in folder.items():
            stem = name.removesuffix(HALF)
            if isinstance(entry, bytes):
                self.units[f"{path}/{name}"] = entry
            elif is_in_parts(name, entry) and (stem == name or stem + PARTS not in folder):
                whole_path = f"{path}/{name.removesuffix(PARTS).removesuffix(HALF)}{PARTS}"
                self.units[whole_path] = tuple(entry.values())
                self.half |= {whole_path} if stem != name else set()
            else:
                self.units[f"{path}/{name}"] = None
                self.add(entry, f"{path}/{name}")


def is_in_parts(name: str, folder: CoreFolder) -> bool:
    return name.endswith((PARTS, HALF)) and list(folder) == [part_name(number) for number in range(len(folder))] and all(
        isinstance(part, bytes) for part in folder.values())


class Wanted:
    """The units of a real folder that is to stand at a path; `other` has for each the path that a file of its name has in parts, or whole.
    """

    def __init__(self, tree: Node, names: list[str]):
        self.units: dict[str, Unit] = {joined(names[:depth + 1]): None for depth in range(len(names))}
        self.other: dict[str, str] = {}
        self.add(tree, "" if not names else joined(names))
        deep = sorted(path for path, unit in self.units.items() if path.count("/") + isinstance(unit, tuple) > DEPTH)
        if deep:
            raise Fault(f"{shown(deep[0])} has more than {DEPTH} names in its path, and so have {len(deep) - 1} others, which no store "
                        "takes: put what is below it in a path of its own")

    def add(self, folder: Node, path: str) -> None:
        self.file(path, [INDEX], [INDEX + PARTS], index_of(folder))
        for name, node in folder.inside.items():
            if node.kind == FILE:
                self.file(path, pieces(name), pieces(name, PARTS), node.data)
            if node.kind == FOLDER:
                names = pieces(name)
                self.folders(path, names)
                self.other[path + joined(names)] = path + joined(pieces(name, PARTS))
                self.add(node, path + joined(names))

    def folders(self, path: str, names: list[str]) -> None:
        for depth in range(len(names)):
            self.units[path + joined(names[:depth + 1])] = None

    def file(self, path: str, whole: list[str], in_parts: list[str], data: bytes) -> None:
        large = len(data) > PART_SIZE
        names, other = (in_parts, whole) if large else (whole, in_parts)
        self.folders(path, names[:-1])
        self.units[path + joined(names)] = tuple(
            data[start:start + PART_SIZE] for start in range(0, len(data), PART_SIZE)) if large else data
        self.other[path + joined(names)] = path + joined(other)
