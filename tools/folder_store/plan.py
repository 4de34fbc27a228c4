"""The lines that bring a store from what stands in it to what is wanted, in an order in which each is accepted.

First goes what stands in the way; then come folders that are new or were renamed, files that were renamed, other new and changed files,
the indexes, and last goes what is gone: so a stop leaves more rather than less. A file in parts has a name of its own, `-.half`, from the
first change of a part to the last, so that nobody takes a half one for a whole.
"""
import collections
import hashlib
from collections.abc import Collection
from itertools import filterfalse

from folder_store.listed import part_name
from folder_store.names import HALF, INDEX, MORE, PARTS, real_path
from folder_store.units import Standing, Wanted


def parent(path: str) -> str:
    return path.rpartition("/")[0] or "/"


def last(path: str) -> str:
    return path.rpartition("/")[2]


def below(folder: str, name: str) -> str:
    return f"{folder.rstrip('/')}/{name}"


def half(path: str) -> str:
    return path.removesuffix(PARTS) + HALF


def is_index(path: str) -> bool:
    return last(path) in (INDEX, INDEX + PARTS)


def is_own(path: str) -> bool:
    """Whether it stands for no real file or folder of its own."""
    return is_index(path) or last(path).endswith(MORE)


def contents(units: dict) -> dict[str, bytes]:
    """For each folder of these units a digest of all that is in it, where there is a file in it beside indexes."""
    inside, has_file = collections.defaultdict(list), set()
    for path in sorted(units, reverse=True):     # what is in a folder comes before it
        unit, above = units[path], parent(path)
        if unit is None:
            found = hashlib.sha256(b"".join(inside[path])).digest()
        else:
            parts = unit if isinstance(unit, tuple) else (unit,)
            found = hashlib.sha256(b"".join(hashlib.sha256(part).digest() for part in parts)).digest()
        if path in has_file or (unit is not None and not is_index(path)):
            has_file.add(above)
        inside[above].append(hashlib.sha256(repr((last(path), unit is None)).encode() + found).digest())
    return {path: hashlib.sha256(b"".join(inside[path])).digest() for path in has_file}


class Plan:
    """`steps` are words, paths and bytes of lines; `renamed` has old paths and new ones, `gone` the paths of what is removed. `granted` are
    the paths of what is granted to somebody by itself."""

    def __init__(self, standing: Standing, wanted: Wanted, granted: Collection[str] = ()):
        self.units, self.half, self.wanted, self.other = dict(standing.units), set(standing.half), wanted.units, wanted.other
        self.steps: list[tuple] = []
        self.before = dict(standing.units)
        self.renamed: list[tuple[str, str]] = []
        self.gone = {self.stands_at(path) for path, unit in self.units.items()
                     if path not in self.wanted or (self.wanted[path] is None) != (unit is None)}
        self.clear_the_way()
        self.make_folders()
        self.rename_files(granted)
        for path in sorted(self.wanted, key=lambda path: (is_index(path), path)):
            self.write(path, self.wanted[path])
        for path in sorted(set(self.units) - set(self.wanted), reverse=True):
            self.remove(path)

    def stands_at(self, path: str) -> str:
        return half(path) if path in self.half else path

    def step(self, *words) -> None:
        self.steps.append(words)

    def lines(self):
        """The lines for the program, one at a time."""
        for word, *fields in self.steps:
            yield " ".join([word, *(field.hex() if isinstance(field, bytes) else field for field in fields)])

    def clear_the_way(self) -> None:
        for path, unit in self.wanted.items():
            stands = self.units.get(path)
            if path in self.units and (stands is None) != (unit is None):
                self.remove_all(path)
            other = self.other.get(path)
            if other in self.units and other not in self.wanted:
                self.remove_all(other)

    def remove_all(self, path: str) -> None:
        for inside in sorted((inside for inside in self.units if inside.startswith(path + "/")), reverse=True):
            self.remove(inside)
        self.remove(path)

    def remove(self, path: str) -> None:
        unit = self.units.pop(path)
        if isinstance(unit, tuple):
            self.to_half(path)
            self.half.discard(path)
            path = half(path)
            for number in reversed(range(len(unit))):
                self.step("rm", below(path, part_name(number)))
        self.step("rm", path)

    def to_half(self, path: str) -> None:
        if path not in self.half:
            self.step("rename", path, last(half(path)))
            self.half.add(path)

    def write(self, path: str, unit) -> None:
        if isinstance(unit, tuple):
            self.write_parts(path, unit)
        elif unit is not None and self.units.get(path) != unit:
            self.step("write", path, unit)
            self.units[path] = unit

    def write_parts(self, path: str, parts: tuple[bytes, ...]) -> None:
        stands = self.units.get(path)
        if stands != parts:
            if stands is None:
                self.step("mkdir", half(path))
                self.half.add(path)
            stands = stands or ()
            self.to_half(path)
            for number, part in enumerate(parts):
                if number >= len(stands) or stands[number] != part:
                    self.step("write", below(half(path), part_name(number)), part)
            for number in reversed(range(len(parts), len(stands))):
                self.step("rm", below(half(path), part_name(number)))
            self.units[path] = parts
        if path in self.half:
            self.step("rename", half(path), last(path))
            self.half.discard(path)

    def make_folders(self) -> None:
        """Makes each new folder, or renames one that is gone from the same folder and held the very same: so its keys and grants stay."""
        gone, stands = collections.defaultdict(list), contents(self.units)
        for path, unit in sorted(self.units.items()):
            if unit is None and path not in self.wanted and not is_own(path) and not self.has_half(path):
                gone[parent(path), stands.get(path)].append(path)
        found = contents(self.wanted)
        for path, unit in sorted(self.wanted.items()):
            if unit is not None or path in self.units:
                continue
            sources = gone[parent(path), found.get(path)] if found.get(path) and not is_own(path) else []
            if sources:
                self.rename_folder(sources.pop(0), path)
            else:
                self.step("mkdir", path)
                self.units[path] = None

    def has_half(self, folder: str) -> bool:
        return any(path.startswith(folder + "/") for path in self.half)

    def rename_folder(self, source: str, path: str) -> None:
        """What is in it counts as being as it was."""
        self.step("rename", source, last(path))
        self.renamed.append((source, path))
        for inside in [inside for inside in self.units if inside == source or inside.startswith(source + "/")]:
            self.units[path + inside[len(source):]] = self.units.pop(inside)
            self.gone.discard(inside)
            if inside != source and inside in self.before:
                self.before[path + inside[len(source):]] = self.before.pop(inside)

    def rename_files(self, granted: Collection[str]) -> None:
        """Renames each file that is new where one with its bytes is gone from the same folder. One that went to another folder is written
        there anew: moved, it would keep its key, which opens to whoever reads that folder what it once held elsewhere. So is a granted one:
        renamed, it would take its grants along, and of two files of one template nobody knows which one this is."""
        gone = collections.defaultdict(list)
        for path in sorted(set(self.units) - set(self.wanted)):
            if self.units[path] and path not in self.half and path not in granted:
                gone[parent(path), self.units[path]].append(path)
        for path, unit in sorted(self.wanted.items()):
            if unit and path not in self.units and not is_index(path) and gone[parent(path), unit]:
                source = gone[parent(path), unit].pop(0)
                self.step("rename", source, last(path))
                self.units[path] = self.units.pop(source)
                self.gone.discard(source)
                self.renamed.append((source, path))

    def counts(self) -> dict[str, int]:
        """What is done, counted by files and folders of the real folder; `indexes` by folders."""
        before, after = (set(filterfalse(is_own, units)) for units in (self.before, self.wanted))
        sources, targets = {source for source, _ in self.renamed}, {target for _, target in self.renamed}
        new = {real_path(path) for path in after - before - targets} - {real_path(path) for path in before}
        gone = {real_path(path) for path in before - after - sources} - {real_path(path) for path in after}
        changed = {real_path(path) for path in after if self.wanted[path] is not None
                   and self.before.get(path) != self.wanted[path]} - new - {real_path(path) for path in targets}
        indexes = sum(is_index(path) and self.before.get(path) != unit for path, unit in self.wanted.items())
        same = len({real_path(path) for path in after}) - len(new) - len(changed) - len(targets)
        return {"new": len(new), "changed": len(changed), "renamed": len(self.renamed), "gone": len(gone), "same": same,
                "indexes": indexes}

    def summary(self) -> str:
        """The counts in words."""
        if not self.steps:
            return "nothing to do, {same} files and folders are as they were".format(**self.counts())
        return ("of files and folders {new} new, {changed} changed, {renamed} renamed, {gone} gone, {same} as they were; "
                "modes, times and links of {indexes} folders").format(**self.counts())
