"""`put FOLDER /path`: brings the store to what a folder holds."""
import json
from collections.abc import Collection

from folder_store import room
from folder_store.entry import opened
from folder_store.faults import Fault, warn
from folder_store.folder import Reader, overlay
from folder_store.listed import CoreFolder, core_at, core_tree, real_folder
from folder_store.names import HALF, PARTS, pieces, real_names, real_path, shown
from folder_store.plan import Plan
from folder_store.progress import followed
from folder_store.units import Standing, Wanted


def add_commands(add) -> None:
    words = add("put", put, "brings the store to what a folder holds: new, changed, renamed and removed files; the owner's key does it")
    words.add_argument("folder", metavar="FOLDER", help="a folder of real files")
    words.add_argument("path", metavar="/path", help="the folder in the store that becomes as FOLDER; missing ones are made")
    words.add_argument("--keep", action="store_true", help="what is gone from FOLDER stays in the store")
    words.add_argument("--skip", action="store_true", help="go on without what a store can't keep; the status is 1 all the same")
    words.add_argument("--with-keys", action="store_true", help="put files that have a line like a store's key, too")
    words.add_argument("--dry-run", action="store_true", help="tell what would be done, and do nothing")


def put(words) -> int:
    """What can't be kept is told by name; without --skip nothing is done then. One line sums up what was done."""
    names = real_names(words.path)
    with opened(words, writes=not words.dry_run) as store:
        read = Reader(words.folder, [words.store, store.keys.above], sum(len(pieces(name)) for name in names), words.with_keys)
        tell_left_out(read, words)
        root = core_tree(store.listing(store.owner))
        plan = plan_of(root, read, names, words.keep, room.grants_on(store))
        see_to_room(store, plan, root)
        if words.dry_run:
            tell_lost_grants(store, plan)
        else:
            store.run(followed(plan.lines(), f"writing {shown(words.store)}", len(plan.steps)))
    tell(words, plan, len(read.left_out))
    return 1 if read.left_out else 0


def tell(words, plan: Plan, left_out: int) -> None:
    """One line that sums up; of a dry run, before it, a line for each step."""
    if words.json:
        steps = {"steps": list(map(texts, plan.steps))} if words.dry_run else {}
        print(json.dumps(plan.counts() | {"left_out": left_out} | steps))
        return
    for step in plan.steps if words.dry_run else []:
        print(" ".join(texts(step)))
    print(("would be put: " if words.dry_run else "put: ") + plan.summary() + f"; {left_out} left out" * bool(left_out))


def tell_left_out(read: Reader, words) -> None:
    for path, cause in sorted(read.left_out.items()):
        warn(f"{shown(b'/'.join(path))} {cause}")
    if read.left_out and not words.skip:
        raise Fault(f"{len(read.left_out)} in {shown(words.folder)} can't be kept, so nothing was done: type --skip to put all else")


def plan_of(root: CoreFolder, read: Reader, real: list[bytes], keep: bool, granted: Collection[str]) -> Plan:
    """The plan to bring the folder of these real names to what was read."""
    see_that_no_file_stands(root, real)
    names = [piece for name in real for piece in pieces(name)]
    around = core_at(root, names)
    if isinstance(around, dict) and (keep or read.left_out):
        overlay(read.tree, real_folder(around), keep, read.left_out)
    return Plan(Standing(root, names), Wanted(read.tree, names), granted)


def see_that_no_file_stands(root: CoreFolder, real: list[bytes]) -> None:
    """A Fault where one of the folders is a file in the store, whole or in parts."""
    place = root
    for depth, name in enumerate(real):
        *above, last = pieces(name, PARTS)
        around = core_at(place, above)
        in_parts = isinstance(around, CoreFolder) and (last in around or last.removesuffix(PARTS) + HALF in around)
        place = core_at(place, pieces(name))
        if in_parts or isinstance(place, bytes):
            path = shown(b"/" + b"/".join(real[:depth + 1]))
            raise Fault(f"{path} is a file in the store: put takes a folder there, or a path that is free")
        if place is None:
            return


def texts(step) -> list[str]:
    """A step's words to be shown, without bytes."""
    word, path, *more = step
    return [word, shown(real_path(path)), *(f"{len(field)} bytes" if isinstance(field, bytes) else field for field in more)]


def see_to_room(store, plan: Plan, root: CoreFolder) -> None:
    """A Fault where all that is to be written may not find room."""
    if plan.steps:
        grants = room.grants_on(store)
        grants[""] = grants["/"]
        room.see_to(store, room.of_steps(plan.steps, dict(names_in(root)), grants))


def names_in(folder: CoreFolder, path: str = ""):
    """Each folder at and below a path, with the number of names in it; the root's path is empty."""
    yield path, len(folder)
    for name, entry in folder.items():
        if isinstance(entry, CoreFolder):
            yield from names_in(entry, f"{path}/{name}")


def tell_lost_grants(store, plan: Plan) -> None:
    """Tells each grant that would go with a folder or file which is gone; `Store.run` tells it where it goes."""
    for name, (_, granted) in store.holders.names.items():
        for path in sorted(granted & plan.gone):
            warn(f"{shown(real_path(path))} is gone, and {name}'s grant on it would go too: if that was only renamed, grant the new one")
