"""A holder gets another number and a new key: what the old one was granted goes over to the new one, and the old one has nothing any more.

The program does it by one line, `replace N`, which stands for `holder`, a grant to the new holder for each of the old one's, and the taking
back of these. A stop may leave a part of it. So the program's replies, of which the new key is the first, go into `NAME.key.next` of the key
folder, each before the next command is done; that file stays until all else is done, and the next `holder replace` of this name goes on from
it. The old key file is kept beside, as `NAME.key.NUMBER`.
"""
import contextlib
import os

from folder_store import private, room
from folder_store.faults import warn
from folder_store.keys import LINE, Key, read_key
from folder_store.private import NewFile
from folder_store.who import granted_to


def replaced(store, name, to):
    """Replaces a holder, or ends what a stop left of that: the new number, what is granted, and where the new key is."""
    holders, own, waiting = store.holders, store.keys.file(name + ".key"), store.keys.file(name + ".key.next")
    number, place, new = holders.number(name), os.path.abspath(to or own), key_in(waiting)
    granted = set(holders.names[name][1])
    with contextlib.nullcontext() if place == own or new and is_copy(place, new) else NewFile(place) as file:
        if new is None:
            new, granted = begun(store, number, granted, waiting)
        elif new.number != number:
            granted = ended(store, number, granted, own, new)
        holders.add(name, new.number, granted)
        set_aside(own, new)
        private.replace(waiting, new.line + "\n")
        if file:
            file.put(new.line + "\n")
        moved(waiting, new, place)
    return new.number, sorted(granted), place


def key_in(waiting):
    """The new key that a stop left; None where there was none yet, and so no other command of a replacement was done."""
    line, end, _ = private.read(waiting).decode("ascii", "replace").partition("\n") if os.path.exists(waiting) else ("", "", "")
    return Key(line, waiting) if end and LINE.fullmatch(line) else None


def is_copy(place, key):
    """Whether a key stands in a place already."""
    return os.path.exists(place) and private.read(place) == key.line.encode() + b"\n"


def moved(path, key, place):
    """Gives a key file another place, where a stop may have left it in both."""
    if is_copy(place, key):
        os.unlink(path)
    else:
        private.settle(path, place)


def begun(store, number, granted, waiting):
    """Has the store replace a holder: the new key, and what it's granted."""
    room.see_to(store, room.of_replacement(store, granted))
    forget(waiting)
    try:
        count = store.replace(number, waiting)
    finally:
        forget(waiting)
    if count == len(granted):
        return key_in(waiting), granted
    warn(f"the store had {count} grants of this holder, and {len(granted)} were recorded: what the new key opens is recorded now; grant anew "
         "what is missing there")
    return key_in(waiting), set(granted_to(store, key_in(waiting)))


def forget(waiting):
    """Takes away what was replied, where it has no key."""
    if os.path.exists(waiting) and key_in(waiting) is None:
        os.unlink(waiting)


def ended(store, number, granted, own, new):
    """Ends what a stop left: each grant that either key has goes to the new holder, and the old one has none. Where the old key isn't here,
    what is recorded says what it has."""
    seen = seen_by(store, number, own)
    either = set(seen or ()).union(granted_to(store, new))
    granted = either | {path for path in granted if seen is None or is_within(path, either)}
    room.see_to(store, room.of_replacement(store, granted))
    store.see_that_are_done([f"grant {new.number} {path}" for path in sorted(granted)], "refused has-grant")
    store.see_that_are_done([f"revoke {number} {path}" for path in sorted(granted)], "refused no-grant")
    while seen_by(store, number, own):
        store.see_that_are_done([f"revoke {number} {path}" for path in seen_by(store, number, own)])
    return granted


def is_within(path, paths):
    """Whether a path is one of these, or below one."""
    return any(path == above or path.startswith(above.rstrip("/") + "/") for above in paths)


def seen_by(store, number, own):
    """The topmost that the old key is shown; None where it isn't in the key folder."""
    key = read_key(own, own) if os.path.exists(own) else None
    return granted_to(store, key) if key and key.number == number else None


def set_aside(own, new):
    """Gives the old key file another name, since none is ever written over."""
    old = read_key(own, own) if os.path.exists(own) else new
    if old.line != new.line:
        moved(own, old, f"{own}.{old.number}")
