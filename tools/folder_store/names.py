"""Real names as names that a store takes, and back, by one rule.

A store takes names of 1 to 64 letters, digits, `.`, `_` and `-`; a real name is 1 to 255 bytes other than `/`. So:

    a letter, a digit, `.`, `_`, `-`      stands for itself
    a blank                               is written `-_`
    other bytes, a run of them            is written `-.`, two digits 0-9a-f for each byte, `.`; a `-` before `.` or `_` counts among them
    what is then longer than 64 bytes     goes on inside a folder: 48 bytes and `-.more`, then the rest of it
    a file larger than a store takes      is a folder, named as the file and `-.parts`, with its parts `0000`, `0001` and so on;
                                          while `put` writes it the folder's name ends with `-.half`
    times, modes and links of a folder    stand in a file of it that is named `-.index`

`Meine Übung.txt` is `Meine-_-.c39c.bung.txt` in the store. No real name is written with `-.` before another letter than a to f, so
that the names of the last three lines are free. Whatever isn't written exactly so is no name of this rule.
"""
import os
import re

from folder_store import limits
from folder_store.faults import BadWords, Hostile

LIMIT, CUT, REAL_LIMIT = limits.NAME, 48, 255
INDEX, PARTS, HALF, MORE = "-.index", "-.parts", "-.half", "-.more"
PART_SIZE = limits.FILE      # a larger file is put in parts
TO_ESCAPE = re.compile(rb" |(?:[^A-Za-z0-9._ -]|-(?=[._]))+")
ESCAPE = re.compile(rb"-_|-\.((?:[0-9a-f]{2})+)\.")


def escaped(name: bytes) -> str:
    """These bytes, of any number, in the bytes that a store's names have."""
    return TO_ESCAPE.sub(lambda run: b"-_" if run[0] == b" " else b"-." + run[0].hex().encode() + b".", name).decode()


def unescaped(text: str) -> bytes:
    """The bytes that are escaped so; Hostile for a text that `escaped` doesn't give."""
    if text.isascii():
        name = ESCAPE.sub(lambda escape: bytes.fromhex(escape[1].decode()) if escape[1] else b" ", text.encode())
        if escaped(name) == text:
            return name
    raise Hostile(f"{shown(text)} isn't written as this front end writes names: nothing of it was taken")


def pieces(name: bytes, mark: str = "") -> list[str]:
    """The names in the store, one inside the other, of what really has this name; the last one ends with the mark."""
    text, found = escaped(name), []
    while len(text) + len(mark) > LIMIT:
        found.append(text[:CUT] + MORE)
        text = text[CUT:]
    return [*found, text + mark]


def real_name(text: str, mark: str, inside: list[str]) -> bytes:
    """The real name whose pieces these are: all that was escaped, its mark, and the pieces as they stand; Hostile where none has them."""
    name = unescaped(text)
    if name in (b"", b".", b"..") or len(name) > REAL_LIMIT or b"/" in name or b"\0" in name or pieces(name, mark) != inside:
        raise Hostile(f"{shown('/'.join(inside))} is no name of a file or folder: nothing of it was taken")
    return name


def real_names(typed: str) -> list[bytes]:
    """The names in a path that somebody typed, as `/trip/My plans`; BadWords where it isn't one from the root of a store."""
    names = [name for name in os.fsencode(typed).split(b"/")[1:] if name]
    if not typed.startswith("/") or any(name in (b".", b"..") or len(name) > REAL_LIMIT for name in names):
        raise BadWords(f"{shown(typed)} is no path of a store: type it from the root, as /trip/plans, without . and ..")
    return names


def joined(names: list[str]) -> str:
    """The path of these names in a store."""
    return "/" + "/".join(names)


def core_path(typed: str, mark: str = "") -> str:
    """The path in the store of the folder or file that somebody typed the real path of; with a mark, of what has that at its end."""
    *above, last = real_names(typed) or [b""]
    return joined([piece for name in above for piece in pieces(name)] + (pieces(last, mark) if last else []))


def real_path(path: str) -> str:
    """What the path of a folder or file in a store stands for, to be shown. A name that isn't of the rule stands for itself."""
    found, text = [], ""
    for name in path.split("/")[1:]:
        if name.endswith(MORE):
            text += name.removesuffix(MORE)
            continue
        stem = name.removesuffix(PARTS).removesuffix(HALF)
        try:
            found.append(os.fsdecode(real_name(text + stem, "", pieces(unescaped(text + stem)))))
        except Hostile:
            found.append(text + name)
        text = ""
        if stem != name:
            break
    return "/" + "/".join(found + [text] * bool(text))


def shown(name: str | bytes) -> str:
    """A name or path for a terminal: what isn't to be printed there is written as `\\x1b`."""
    def letter_shown(letter):
        is_byte = ord(letter) < 0x100 or 0xdc00 <= ord(letter) < 0xdd00
        return letter if letter.isprintable() else f"\\x{ord(letter) & 0xff:02x}" if is_byte else f"\\u{ord(letter):04x}"
    return "".join(map(letter_shown, os.fsdecode(name)))
