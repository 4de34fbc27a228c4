"""The lines that `put` makes of random folders, over a plain store that refuses what the program refuses: none is refused, at their end
the folder comes back from a listing, and a stop leaves whole files, or ones that are told as half; the next put finishes it. No file that
is granted is renamed."""
import dataclasses
import os
import random
import sys

import harness
from front_calls import FRONT
from plain_store import PlainStore, is_below

sys.path.insert(0, os.path.dirname(FRONT))
sys.dont_write_bytecode = True

from folder_store import listed, plan, tree, units     # noqa: E402 (the package stands beside the front end)
from folder_store.store import Line                    # noqa: E402

RANDOM = random.Random("front plans")
NAMES = [b"a", b"b", b"a b", b"-.x", "ü".encode(), b"c" * 60, b"c" * 70, b"c" * 48 + b"d" * 60, b"x-.parts", b"-.index"]
BYTES = [b"", b"1", b"22", b"12345678", b"123456789", b"12345678123456780", b"12345678123456789", b"abcdefgh12345678x"]
PART = 8


class StrictStore(PlainStore):
    """A plain store whose `refused` says whether the program would refuse a line."""

    def refused(self, line):
        word, path, *fields = line.split(b" ")
        above, name = path.rsplit(b"/", 1)
        if word == b"mkdir":
            return path in self.nodes or self.nodes.get(above or b"/", 0) is not None
        if word == b"write":
            return self.nodes.get(path, b"") is None or self.nodes.get(above or b"/", 0) is not None or len(fields[0]) > 2 * PART
        if path not in self.nodes or path == b"/":
            return True
        if word == b"rm":
            return any(is_below(inside, path) and inside != path for inside in self.nodes)
        around = (above or b"/") if word == b"rename" else fields[0]
        target = around.rstrip(b"/") + b"/" + (fields[0] if word == b"rename" else name)
        return target in self.nodes or self.nodes.get(around, 0) is not None or is_below(around, path)

    def listing(self):
        lines = [(path, "folder" if data is None else "file", data) for path, data in sorted(self.nodes.items())]
        return [Line(kind, path.decode(), data) for path, kind, data in lines]


def folder(depth=0):
    node = tree.Node(tree.FOLDER, 0o755, RANDOM.randrange(3))
    for name in RANDOM.sample(NAMES, RANDOM.randrange(5 if depth < 3 else 1)):
        kind = RANDOM.choice([tree.FOLDER, tree.FILE, tree.FILE, tree.LINK])
        data = RANDOM.choice(BYTES)
        node.inside[name] = folder(depth + 1) if kind == tree.FOLDER else tree.Node(kind, 0o644, RANDOM.randrange(3), data or b"/" * (
            kind == tree.LINK))
    return node


def plan_for(store, wanted, names, granted=()):
    return plan.Plan(units.Standing(listed.core_tree(store.listing()), names), units.Wanted(wanted, names), granted)


def done(store, lines, wrong):
    for line in lines:
        if store.refused(line.encode()):
            wrong.append(line)
            return
        store.done(line.encode())


def one_put(store, wanted, names, wrong):
    """A put that may be stopped some times before it is done."""
    while True:
        granted = {path.decode() for path in store.nodes if not RANDOM.randrange(4)}
        found = plan_for(store, wanted, names, granted)
        lines = list(found.lines())
        wrong += [source for source, _ in found.renamed if source in granted and found.before[source] is not None]
        stop = RANDOM.randrange(2 * len(lines) + 1)
        done(store, lines[:stop], wrong)
        if stop >= len(lines) or wrong:
            break
        stands = listed.real_folder(listed.core_tree(store.listing()))
        wrong += [path for path, node in tree.walk(stands) if node.kind == tree.FILE and node.data not in BYTES and not node.half]
    if not wrong and listed.node_at(store.listing(), "/" + "/".join(names)) != wanted:
        wrong.append("another folder comes back")
    if not wrong and list(plan_for(store, wanted, names).lines()):
        wrong.append("putting it again writes")


def renamed(node):
    """The same folder, in which some of the folders have other names."""
    names = {name: RANDOM.choice([name, *(free for free in NAMES if free not in node.inside)]) for name in node.inside}
    new = dataclasses.replace(node, inside={})
    for name, inside in node.inside.items():
        is_folder = inside.kind == tree.FOLDER
        target = names[name] if is_folder and names[name] not in new.inside else name
        new.inside[target] = renamed(inside) if is_folder else inside
    return new


def folders_that_keep_their_grants(check):
    """A folder that was renamed is renamed in the store where it holds the very same, and nothing in it is written again."""
    def holding(name, data, number=1):
        inside = tree.Node(tree.FOLDER, 0o755, 1, inside={b"in": tree.Node(tree.FOLDER, 0o755, 1, inside={b"f": tree.Node(
            tree.FILE, 0o644, number, data)})})
        return tree.Node(tree.FOLDER, 0o755, 1, inside={name: inside, b"g": tree.Node(tree.FILE, 0o644, 1, b"g")})

    large = b"in parts, as it is long"
    for data in (b"1", large):
        for new, due in ((holding(b"new", data), ["rename /old new"]), (holding(b"n" * 70, data), None), (holding(b"new", b"2"), None),
                         (holding(b"new", data, 2), None)):
            store = StrictStore()
            done(store, plan_for(store, holding(b"old", data), []).lines(), [])
            store.grants.add((1, b"/old"))
            found = plan_for(store, new, [])
            lines = list(found.lines())
            done(store, lines, [])
            check.expect(f"a folder renamed with {data}", (lines if due else None, store.grants, found.gone & {"/old", "/old/in", "/g"}), (
                due, {(1, b"/new")} if due else set(), set() if due else {"/old", "/old/in"}))
            check.expect("what is counted", [found.counts()[word] for word in ("new", "changed", "renamed", "gone", "same")],
                         [0, 0, 1, 0, 3] if due else [3, 0, 0, 3, 1])


def all_plans(check):
    units.PART_SIZE, size = PART, units.PART_SIZE
    folders_that_keep_their_grants(check)
    for number in range(400):
        store, wrong, last = StrictStore(), [], None
        for _ in range(3):
            last = renamed(last) if last and RANDOM.randrange(2) else folder()
            one_put(store, last, RANDOM.choice([[], ["trip"], ["trip", "in"]]), wrong)
        check.expect(f"plan {number}", wrong, [])
    units.PART_SIZE = size


if __name__ == "__main__":
    harness.main(__doc__, all_plans)
