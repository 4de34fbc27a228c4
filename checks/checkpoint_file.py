"""Writes and reads a checkpoint as docs/FORMAT.md says it ("The checkpoint"): the file beside a store that holds what the log's first
batches come to. The key step and the tests of a log are those of key_step.py and store_reader.py. No command of the program writes or reads
one yet, so that nothing here asks it.

A body is its rows, each a tuple of the row's fields, as they stand in the file. A spot is a batch's number, and a record's place among the
links, or the contents, of its payload.
"""
from collections import namedtuple

from key_step import (BYTES_OF_FILE, CLEAR, CLEARANCES, FILE, FOLDER_ROLES, HOLDER, KEY_OF_HOLDER, NAME_OF_FOLDER, OWNER, State, source,
                      target)
from store_limits import DEPTH
from store_reader import Cursor, Fault, FormFault, batch_behind, be32, before_the_log, followed, log, mac, takes, test_header

FRONT, VERSIONS, LIMIT = b"CRYPTIDX\1", (0, 1, 2), 1 << 30

Checkpoint = namedtuple("Checkpoint", "batch tag body")
Body = namedtuple("Body", "numbers folders files checks grants keys marks links contents")
Numbers = namedtuple("Numbers", "version epoch count folders files holders")
Table = namedtuple("Table", "widths heads")  # the bytes of each field of a row, and how many of its first fields the rows ascend by
TABLES = {"folders": Table((4, 4), 1), "files": Table((4, 4), 1), "grants": Table((4, 4), 2), "keys": Table((1, 4, 8), 2),
          "marks": Table((1, 4), 2), "links": Table((1, 4, 4, 4, 4), 3), "contents": Table((1, 4, 4, 4), 2)}
WIDTHS_OF_NUMBERS, CHECK = (1, 4, 4, 4, 4, 4), 32


# what stands

def present_edges(parents, homes, grants):
    """The edges that "Kinds of links" has for folders with their parents (0 for the root), files with their folders, and grants."""
    clearances = {number for _, number in grants if number >= CLEARANCES}
    edges = {(1, 0, number) for number in (*parents, *clearances)} | {(2, *grant) for grant in grants}
    edges |= {(kind, folder, folder) for folder in parents for kind in (3, 4, 5, 7)}
    for folder, parent in parents.items():
        edges |= {(6, parent, folder), (8, folder, parent)} if parent else set()
    edges |= {(9, home, file) for file, home in homes.items()}
    for number in clearances:
        edges |= {(10, number, number - CLEARANCES), (11, number, homes[number - CLEARANCES])}
    return edges


def standing_roles(parents, homes, grants, holders):
    """The roles that have a key, but for Owner."""
    roles = {(kind, folder) for folder in parents for kind in FOLDER_ROLES} | {(FILE, file) for file in homes}
    roles |= {(CLEAR, number) for _, number in grants if number >= CLEARANCES}
    return roles | {(HOLDER, holder) for holder in range(1, holders + 1)}


def objects(parents, homes, holders):
    """The kind and the number of each content that is kept."""
    return ([(NAME_OF_FOLDER, folder) for folder in parents] + [(BYTES_OF_FILE, file) for file in homes]
            + [(KEY_OF_HOLDER, holder) for holder in range(1, holders + 1)])


# written

def of_log(image, owner):
    """The checkpoint of all batches of a store that opens for writing."""
    batches = log(image, owner, writing=True)
    last, _ = batches[-1]
    return Checkpoint(last.number, last.tag, body_of(followed(batches)[0], *spots(batches)))


def spots(batches):
    """Where the last link of each edge stands, and the last content of each kind and number."""
    links, contents = {}, {}
    for batch, payload in batches:
        for found, records in ((links, payload.links), (contents, payload.contents)) if payload else ():
            found.update({(record.head.kind, *record.head.ids): (batch.number, place) for place, record in enumerate(records)})
    return links, contents


def body_of(state, links, contents):
    """The rows of a state, with the spots of what stands in it."""
    holders = len(state.checks)
    numbers = Numbers(state.version or 0, state.epoch, state.count, state.folders_made, state.files_made, holders)
    folders = sorted((folder, parent or 0) for folder, parent in state.parents.items())
    keys = sorted((*role, serial) for role, serial in state.serials.items() if role != (OWNER, 0))
    kept = objects(state.parents, state.homes, holders)
    return Body(numbers, folders, sorted(state.homes.items()), list(state.checks), sorted(state.grants), keys, sorted(state.dirty),
                sorted((*edge, *links[edge]) for edge in state.edges), sorted((*one, *contents[one]) for one in kept))


def spelled(checkpoint, owner):
    return framed(checkpoint, spelled_body(checkpoint.body), owner)


def framed(checkpoint, body, owner):
    """The file's bytes around a body that is spelled."""
    front = FRONT + be32(checkpoint.batch) + checkpoint.tag + be32(len(body)) + body
    return front + mac(mac(owner, b"\6"), front)


def spelled_body(body):
    parts = [spelled_row(body.numbers, WIDTHS_OF_NUMBERS)]
    for name, rows in body._asdict().items():
        if name in TABLES:
            parts.append(be32(len(rows)))
            parts += [spelled_row(row, TABLES[name].widths) for row in rows]
        elif name == "checks":
            parts += rows
    return b"".join(parts)


def spelled_row(row, widths):
    return b"".join(field.to_bytes(width, "big") for field, width in zip(row, widths, strict=True))


def written_over(old, checkpoint, owner):
    """What a checkpoint's file holds once this one is written: a longer file keeps its old end."""
    new = spelled(checkpoint, owner)
    return new + old[len(new):]


# read

def read(side, owner):
    """The checkpoint that stands in a file of these bytes, if one does."""
    cursor = Cursor(side)
    try:
        front, batch, tag = cursor.take(len(FRONT)), cursor.number(4), cursor.take(32)
        body = cursor.take(cursor.number(4))
        end = cursor.at
        is_right = (front, cursor.take(32)) == (FRONT, mac(mac(owner, b"\6"), side[:end]))
        found = Checkpoint(batch, tag, read_body(Cursor(body)))
    except FormFault:
        return None
    return found if is_right and batch > 0 and is_sound(found) else None


def read_body(cursor):
    numbers = Numbers(*map(cursor.number, WIDTHS_OF_NUMBERS))
    parts = {}
    for name in Body._fields[1:]:
        if name == "checks":
            parts[name] = [cursor.take(CHECK) for _ in range(numbers.holders)]
        else:
            parts[name] = [tuple(map(cursor.number, TABLES[name].widths)) for _ in range(cursor.number(4))]
    if cursor.at < len(cursor.text):
        raise FormFault(cursor.at)
    return Body(numbers, **parts)


def is_sound(checkpoint):
    """Each test rests on those before it."""
    body, numbers = checkpoint.body, checkpoint.body.numbers
    if not all(ascends([row[:table.heads] for row in getattr(body, name)]) for name, table in TABLES.items()):
        return False
    if max(numbers[1:]) >= LIMIT or numbers.version not in VERSIONS or (numbers.version == 0) != (numbers.folders == 0):
        return False
    if numbers.folders == 0 and (numbers.files or numbers.holders):
        return False
    parents, homes = dict(body.folders), dict(body.files)
    return is_tree(numbers, parents, homes) and are_grants(body, parents, homes) and are_keys(body) and are_spots(checkpoint)


def ascends(rows):
    return all(one < next_one for one, next_one in zip(rows, rows[1:]))


def is_tree(numbers, parents, homes):
    if not (all(1 <= one <= numbers.folders for one in parents) and all(1 <= one <= numbers.files for one in homes)):
        return False
    if numbers.folders and parents.get(1) != 0 or not all(parent in parents for folder, parent in parents.items() if folder != 1):
        return False
    return (all(is_below_root(parents, folder, DEPTH) for folder in parents)
            and all(home in parents and is_below_root(parents, home, DEPTH - 1) for home in homes.values()))


def is_below_root(parents, folder, most):
    """Whether so many steps up lead from a folder to the root."""
    for _ in range(most):
        folder = folder if folder == 1 else parents[folder]
    return folder == 1


def are_grants(body, parents, homes):
    holders = body.numbers.holders
    return all(1 <= holder <= holders and (number in parents or number - CLEARANCES in homes) for holder, number in body.grants)


def are_keys(body):
    parents, homes, numbers = dict(body.folders), dict(body.files), body.numbers
    roles, serials, marks = [row[:2] for row in body.keys], [row[2] for row in body.keys], set(body.marks)
    standing = standing_roles(parents, homes, body.grants, numbers.holders)
    if set(roles) != standing or len({0, *serials}) != len(serials) + 1 or max([0, *serials]) >= (numbers.epoch << 32) + numbers.count:
        return False
    if not marks <= standing or any(kind in (OWNER, HOLDER) for kind, _ in marks):
        return False
    return all(target(edge) in marks for edge in present_edges(parents, homes, body.grants) if source(edge) in marks)


def are_spots(checkpoint):
    body = checkpoint.body
    parents, homes = dict(body.folders), dict(body.files)
    edges, kept = present_edges(parents, homes, body.grants), objects(parents, homes, body.numbers.holders)
    batches = [row[-2] for row in body.links + body.contents]
    return ([row[:3] for row in body.links] == sorted(edges) and [row[:2] for row in body.contents] == sorted(kept)
            and all(1 <= batch <= checkpoint.batch for batch in batches))


# used

def is_taken(checkpoint, image, owner):
    """Whether a writer begins at this checkpoint: its batches stand in the log, their payloads not looked at, and the last one fits it."""
    try:
        test_header(image, owner)
        last = before_the_log(image)
        for _ in range(checkpoint.batch):
            last = last and batch_behind(image, last, owner)
    except Fault:
        return False
    return last is not None and (last.tag, last.epoch) == (checkpoint.tag, checkpoint.body.numbers.epoch)


def followed_behind(checkpoint, image, owner):
    """The state behind the log's last batch, from this checkpoint on, which is taken there and whose log's payloads all fit."""
    state = state_of(checkpoint.body)
    for batch, payload in log(image, owner, writing=True)[checkpoint.batch:]:
        if payload is None:
            state.begin_epoch(batch.epoch)
        else:
            assert takes(state, payload)
    return state


def state_of(body):
    """What key_step.py goes on from."""
    state, numbers = State(), body.numbers
    state.version, state.epoch, state.count = numbers.version or None, numbers.epoch, numbers.count
    state.folders_made, state.files_made = numbers.folders, numbers.files
    state.parents, state.homes = {folder: parent or None for folder, parent in body.folders}, dict(body.files)
    state.checks, state.grants, state.dirty = list(body.checks), set(body.grants), set(body.marks)
    state.serials |= {(kind, number): serial for kind, number, serial in body.keys}
    state.edges = present_edges(dict(body.folders), dict(body.files), body.grants)
    return state
