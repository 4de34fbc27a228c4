"""Checkpoints as only who has the owner's key could write them: each with one thing in it that docs/FORMAT.md doesn't allow, under a right
tag, and some that it does allow and no log comes to. They are made from the checkpoint of a store with two folders, a file in the second,
and a holder with a grant there, where no role is dirty.
"""
from changed_bytes import plain, rebuilt
from checkpoint_file import LIMIT, TABLES, Body, Checkpoint, Numbers, framed, objects, present_edges, spelled, spelled_body, standing_roles
from key_step import BYTES_OF_FILE, CLEAR, CLEARANCES, DATA, FILE, HOLDER, OWNER, SUB
from store_limits import DEPTH
from store_reader import damaged, mac

NO_STATE = Body(Numbers(0, 1, 0, 0, 0, 0), *([] for _ in Body._fields[1:]))  # behind the first epoch batch, before the root


def with_rows(found, **rows):
    return found._replace(body=found.body._replace(**rows))


def with_numbers(found, **numbers):
    return with_rows(found, numbers=found.body.numbers._replace(**numbers))


def with_tree(found, folders=None, files=None, grants=None):
    """The checkpoint with other folders, files or grants, and with keys, links and contents for what then stands."""
    body = found.body
    folders, files, grants = (getattr(body, name) if rows is None else rows
                              for name, rows in (("folders", folders), ("files", files), ("grants", grants)))
    made = [max(before, *(row[0] for row in rows)) for before, rows in ((body.numbers.folders, folders), (body.numbers.files, files))]
    numbers = body.numbers._replace(folders=made[0], files=made[1], count=body.numbers.count + 10 * len(folders))
    parents, homes = dict(folders), dict(files)
    keys, serials = {row[:2]: row[2] for row in body.keys}, iter(range((numbers.epoch << 32) + body.numbers.count, 1 << 64))
    spots = {row[:-2]: row[-2:] for row in body.links + body.contents}
    roles = sorted(standing_roles(parents, homes, grants, numbers.holders))
    rows = {"keys": [(*role, keys[role] if role in keys else next(serials)) for role in roles]}
    for name, heads in (("links", present_edges(parents, homes, grants)), ("contents", objects(parents, homes, numbers.holders))):
        rows[name] = [head + spots.get(head, (1, 0)) for head in sorted(heads)]
    return with_rows(found, numbers=numbers, folders=folders, files=files, grants=grants, **rows)


def chain(found, depth):
    """A folder at this depth, with all above it."""
    return [*found.body.folders, *((folder, folder - 1) for folder in range(3, depth + 2))]


def sound(found):
    """What is allowed, with what it is."""
    body = found.body
    yield "as it is", found
    yield "no root", Checkpoint(1, found.tag, NO_STATE)
    yield "a folder at the last depth", with_tree(found, folders=chain(found, DEPTH))
    yield "a file at the last depth", with_tree(found, folders=chain(found, DEPTH - 1), files=[(1, DEPTH)])
    yield "a grant on the file, in either version", with_tree(found, grants=[*body.grants, (1, CLEARANCES + 1)])
    yield "marked, and nothing behind it", with_rows(found, marks=[(DATA, 1), (FILE, 1)])
    yield "all marked", with_rows(found, marks=[row[:2] for row in body.keys if row[0] != HOLDER])
    yield "larger numbers", with_numbers(found, **dict.fromkeys(("epoch", "count", "folders", "files"), LIMIT - 1))


def unsound(found):
    """What isn't allowed, with what is wrong with it."""
    yield from with_wrong_numbers(found)
    yield from with_wrong_trees(found)
    yield from with_wrong_keys(found)
    yield from with_wrong_spots(found)
    for name, table in TABLES.items():
        rows = getattr(found.body, name)
        if rows:
            yield f"{name}, one twice", with_rows(found, **{name: [*rows, rows[-1]]})
        if len(rows) > 1:
            yield f"{name}, two exchanged", with_rows(found, **{name: [rows[1], rows[0], *rows[2:]]})


def with_wrong_numbers(found):
    for name in ("epoch", "count", "folders", "files"):
        yield f"{name}, too large", with_numbers(found, **{name: LIMIT})
    yield "version 3", with_numbers(found, version=3)
    yield "version 0 with a root", with_numbers(found, version=0)
    for version in (1, 2):
        yield f"version {version} without a root", Checkpoint(1, found.tag, NO_STATE._replace(numbers=Numbers(version, 1, 0, 0, 0, 0)))
    yield "no serial due", Checkpoint(1, found.tag, NO_STATE._replace(numbers=Numbers(0, 0, 0, 0, 0, 0)))
    yield "a file before the root", Checkpoint(1, found.tag, NO_STATE._replace(numbers=Numbers(0, 1, 0, 0, 1, 0)))
    before = NO_STATE._replace(numbers=Numbers(0, 1, 1, 0, 0, 1), checks=[bytes(32)], keys=[(HOLDER, 1, 1 << 32)], contents=[(3, 1, 1, 0)])
    yield "a holder before the root", Checkpoint(1, found.tag, before)
    yield "batch 0", Checkpoint(0, found.tag, NO_STATE)


def with_wrong_trees(found):
    body = found.body
    yield "a folder that wasn't made", with_numbers(found, folders=1)
    yield "a file that wasn't made", with_numbers(found, files=0)
    yield "a folder 0", with_tree(found, folders=[(0, 1), *body.folders])
    yield "no root", with_tree(found, folders=[(2, 2)])
    yield "a root in a folder", with_tree(found, folders=[(1, 2), (2, 1)])
    yield "two roots", with_tree(found, folders=[(1, 0), (2, 0)])
    yield "a folder in itself", with_tree(found, folders=[(1, 0), (2, 2)])
    yield "two folders in each other", with_tree(found, folders=[(1, 0), (2, 1), (3, 4), (4, 3)])
    yield "a folder in none", with_tree(found, folders=[(1, 0), (2, 1), (3, 9)])
    yield "a folder too deep", with_tree(found, folders=chain(found, DEPTH + 1))
    yield "a file in none", with_tree(found, files=[(1, 9)])
    yield "a file too deep", with_tree(found, folders=chain(found, DEPTH), files=[(1, DEPTH + 1)])
    yield "a grant of nobody", with_tree(found, grants=[(body.numbers.holders + 1, 1)])
    yield "a grant of the owner", with_tree(found, grants=[(0, 1), *body.grants])
    yield "a grant on no folder", with_tree(found, grants=[*body.grants, (1, 9)])
    granted = with_tree(found, grants=[*body.grants, (1, CLEARANCES + 1)])
    moved = {name: [tuple(CLEARANCES + 9 if field == CLEARANCES + 1 else field for field in row) for row in getattr(granted.body, name)]
             for name in ("grants", "keys", "links")}
    yield "a grant on no file", with_rows(granted, **moved)


def with_wrong_keys(found):
    keys, numbers = found.body.keys, found.body.numbers
    due = (numbers.epoch << 32) + numbers.count
    yield "a key less", with_rows(found, keys=keys[1:])
    yield "a key of Owner", with_rows(found, keys=[(OWNER, 0, due - 1), *keys])
    later = with_numbers(found, count=numbers.count + 1)
    yield "a key of a role that doesn't stand", with_rows(later, keys=sorted([*keys, (CLEAR, 9, due)]))
    yield "a key at a place that no word has", with_rows(later, keys=[*keys, (8, 1, due)])
    for what, serial in (("another's", keys[0][2]), ("Owner's", 0), ("the next one", due)):
        yield f"a serial, {what}", with_rows(found, keys=[*keys[:-1], (*keys[-1][:2], serial)])
    everything = [row[:2] for row in keys]
    for what, marks in (("a role that doesn't stand", [(DATA, 9)]), ("a holder", everything), ("the owner", [(OWNER, 0), *everything[1:]]),
                        ("none that it leads to", [(CLEAR, 1)]), ("not all that it leads to", [(SUB, 2), (DATA, 2), (FILE, 1)])):
        yield f"marked, {what}", with_rows(found, marks=marks)


def with_wrong_spots(found):
    links, contents = found.body.links, found.body.contents
    for name, rows, other in (("links", links, (8, 1, 2, 1, 0)), ("contents", contents, (BYTES_OF_FILE, 9, 1, 0))):
        yield f"{name}, one less", with_rows(found, **{name: rows[:-1]})
        yield f"{name}, one more", with_rows(found, **{name: sorted([*rows, other])})
        for batch in (0, found.batch + 1):
            yield f"{name}, in batch {batch}", with_rows(found, **{name: [*rows[:-1], (*rows[-1][:-2], batch, 0)]})


def misspelled(found, owner):
    """Files that don't hold the checkpoint, with what is wrong with them, and a right tag."""
    body = spelled_body(found.body)
    yield "a byte behind the body", framed(found, body + b"\0", owner)
    yield "the body's last byte left out", framed(found, body[:-1], owner)
    yield "a folder counted that isn't there", framed(found, body[:24] + bytes([body[24] + 1]) + body[25:], owner)
    for what, front in (("another word", b"CRYPTREE\1"), ("another form", b"CRYPTIDX\2")):
        changed = front + spelled(found, owner)[len(front):-32]
        yield what, changed + mac(mac(owner, b"\6"), changed)


def before_damage(found, image, owner):
    """The checkpoint and its store, where batch 5 has a payload that spells nothing, checks and tags that fit it, and what opening this
    store without the checkpoint is answered."""
    batches = plain(image, owner)
    kind, epoch, payload = batches[4]
    place = len(rebuilt(batches[:4], owner)) + 45
    batches[4] = kind, epoch, bytes(len(payload))
    changed = rebuilt(batches, owner)
    return found._replace(tag=changed[-33:-1]), changed, damaged(place).answer
