"""Looking into a store without making files of it: `ls`, `cat`, `history`."""
import base64
import datetime
import hashlib
import json
import os
import stat
import sys

from folder_store.entry import opened
from folder_store.faults import Fault, warn
from folder_store.listed import node_at, part_name
from folder_store.names import PART_SIZE, pieces, real_names, real_path, shown
from folder_store.tree import FILE, FOLDER, LINK, Node, walk

KIND_BITS = {FOLDER: stat.S_IFDIR, FILE: stat.S_IFREG, LINK: stat.S_IFLNK}


def add_commands(add) -> None:
    words = add("ls", ls, "lists what a folder has, or a file, without bytes")
    words.add_argument("path", metavar="/path", nargs="?", default="/")
    words.add_argument("-l", dest="long", action="store_true", help="with mode, size and time of change")
    words.add_argument("-R", dest="all", action="store_true", help="all that is below it, too")
    words = add("cat", cat, "prints a file's bytes")
    words.add_argument("path", metavar="/path")
    words = add("history", history, "tells each name and size that a file or folder had, as far as the key opens them")
    words.add_argument("path", metavar="/path")


def seen_at(words, store) -> Node:
    return node_at(store.listing(store.key(words.holder, words.key)), words.path)


def ls(words) -> int | None:
    """Names by paths from the folder on; 1 where a file is only half written."""
    with opened(words, writes=False) as store:
        node = seen_at(words, store)
    names = real_names(words.path)
    found = [(path, inside) for path, inside in walk(node) if len(path) == 1 or (path and words.all)]
    if node.kind != FOLDER:
        found = [((names[-1],), node)]
    if words.json:
        print(json.dumps([facts(path, inside) for path, inside in found]))
    for path, inside in [] if words.json else found:
        print((long_form(inside) if words.long else "") + shown(b"/".join(path)) + "/" * (inside.kind == FOLDER)
              + (f" -> {shown(inside.data)}" if inside.kind == LINK and words.long else ""))
    half = [path for path, inside in found if inside.half]
    for path in half:
        warn(f"{shown(b'/'.join(path))} is half written: let the owner put that folder once more, which finishes it")
    return 1 if half else None


def long_form(node: Node) -> str:
    mode = stat.filemode(KIND_BITS[node.kind] | (node.mode or 0))
    if node.mode is None:
        mode = mode[0] + "?" * 9
    return f"{mode} {len(node.data) if node.kind == FILE else '-':>9} {time_of(node) or '-':<19} "


def time_of(node: Node) -> str | None:
    """The time of change by the clock of this place."""
    try:
        return None if node.time is None else datetime.datetime.fromtimestamp(node.time // 10**9).isoformat(" ")
    except (ValueError, OverflowError, OSError):
        return f"{node.time // 10**9} s"


def facts(path, node: Node) -> dict:
    """What JSON tells of a node; bytes of a name that aren't UTF-8 come as Python's surrogates."""
    told = {"path": os.fsdecode(b"/".join(path)), "kind": node.kind}
    if node.kind == FILE:
        told["size"] = len(node.data)
    if node.half:
        told["half"] = True
    if node.kind == LINK:
        told["target"] = os.fsdecode(node.data)
    if node.named_only:
        told["named_only"] = True
    if node.time is not None:
        told |= {"mode": f"{node.mode:03o}", "time": node.time}
    return told


def cat(words) -> None:
    with opened(words, writes=False) as store:
        node = seen_at(words, store)
    if node.kind != FILE:
        raise Fault(f"{shown(words.path)} is a {node.kind}" + (f" to {shown(node.data)}" if node.kind == LINK else ": ls lists it"))
    if node.half:
        raise Fault(f"{shown(words.path)} is half written: let the owner put its folder once more, which finishes it")
    if words.json:
        print(json.dumps({"path": words.path, "size": len(node.data), "base64": base64.b64encode(node.data).decode()}))
    else:
        sys.stdout.buffer.write(node.data)


def history(words) -> None:
    """One line for each time that it was written or named, in that order. The audit tells numbers, not folders: where others have the same
    name and bytes now, it can't be told which is which, and all are told."""
    with opened(words, writes=False) as store:
        node, audit = seen_at(words, store), store.audit(store.key(words.holder, words.key))
    if node.kind == LINK:
        raise Fault(f"{shown(words.path)} is a link: it stands in the index of its folder, and has no history of its own")
    latest = {(line.kind, line.number): (line.name, line.data) for line in audit}
    found = set()
    for target in targets(real_names(words.path), node):
        numbers = {place for place, last in latest.items() if place[0] == node.kind and last == target}
        if len(numbers) > 1:
            warn(f"{len(numbers)} {node.kind}s have or had this name last, with the same bytes: here are all of them")
        found |= numbers
    told = [line for line in audit if (line.kind, line.number) in found]
    if words.json:
        print(json.dumps([version(line) for line in told]))
    for line in [] if words.json else told:
        size = f"{len(line.data):>9} bytes  " if line.data is not None else ""
        print(f"batch {line.batch}  {line.kind} {line.number}  {size}{shown(real_path('/' + line.name))[1:] or '/'}")


def targets(names: list[bytes], node: Node) -> list[tuple[str, bytes | None]]:
    """The store's own name and bytes of a file, or of its parts, or of a folder."""
    if len(node.data) > PART_SIZE:
        starts = range(0, len(node.data), PART_SIZE)
        return [(part_name(number), node.data[start:start + PART_SIZE]) for number, start in enumerate(starts)]
    return [(pieces(names[-1])[-1] if names else "", node.data if node.kind == FILE else None)]


def version(line) -> dict:
    told = {"batch": line.batch, "kind": line.kind, "number": line.number, "name": real_path("/" + line.name)[1:]}
    return told if line.data is None else told | {"size": len(line.data), "sha256": hashlib.sha256(line.data).hexdigest()}
