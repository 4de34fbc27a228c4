"""Keys and where they are kept.

A key folder (`~/.config/cryptree`, or --keys DIR) has a folder for each store, named by the check of its owner's key, which stands in the
store's header. So keys follow a store that is moved or renamed. In it are

    owner.key       the owner's line, made with the store and never written again
    NAME.key        the line of a holder, to be handed over
    holders.json    who has which number, and what was granted (holders.py)
    last            the last head that was seen of the store (last.py); a reader's folder may have this alone

and beside these folders `places.json` tells which store was written where (places.py). Each of them can be read by their owner alone, and
no key is ever shown.
"""
import os
import re
from dataclasses import dataclass, field

from folder_store import private
from folder_store.faults import BadKey, BadWords, NoKey

DEFAULT = os.path.join("~", ".config", "cryptree")
LINE = re.compile(r"owner [0-9A-Fa-f]{64}|holder ([1-9][0-9]{0,9}) [0-9A-Fa-f]{64}")
NAME = re.compile(r"(?!owner\Z)\w[\w.@+-]{0,62}")


@dataclass(frozen=True)
class Key:
    """A key line, and whose it is: "owner", a holder's name, or the file that it was read from."""

    line: str = field(repr=False)
    name: str = "owner"

    @property
    def is_owner(self):
        return self.line.startswith("owner ")

    @property
    def number(self):
        """The holder's, None for the owner."""
        return None if self.is_owner else int(self.line.split(" ")[1])


def read_key(path, name):
    """The key in a file, or what is wrong with it."""
    try:
        data = private.read(path)
    except FileNotFoundError:
        raise NoKey(f"there is no key file {path}: check the name, or the key folder (--keys)") from None
    except IsADirectoryError:
        raise BadKey(f"{path} is a folder, not a key file: name the file in it") from None
    again = "take it anew from whoever gave it"
    if not data.strip():
        raise BadKey(f"the key file {path} is empty: {again}")
    if data.startswith((b"\xef\xbb\xbf", b"\xff\xfe", b"\xfe\xff")):
        raise BadKey(f"the key file {path} begins with a byte order mark, as some editors write one: save it as plain ASCII, without it")
    if b"\r" in data:
        raise BadKey(f"the key file {path} has line ends of Windows (CRLF): save it with those of Unix (LF)")
    text = data.decode("ascii", "replace").removesuffix("\n")
    if not LINE.fullmatch(text):
        raise BadKey(f"the key file {path} isn't one line `owner HEX` or `holder N HEX` of 64 digits: {again}")
    return Key(text, name)


def checked_name(name):
    """A holder's name, which is a file's name too."""
    if not NAME.fullmatch(name):
        raise BadWords(f"{name!r} can't be a holder's name: take 1 to 63 letters, digits, `_`, `.`, `@`, `+` or `-`, "
                       "a letter or digit first, and not `owner`")
    return name


class KeyFolder:
    """The folder of one store's keys."""

    def __init__(self, path, identity):
        self.above, self.identity = os.path.abspath(os.path.expanduser(path or DEFAULT)), identity.hex()
        self.path = os.path.join(self.above, self.identity)

    def file(self, name):
        return os.path.join(self.path, name)

    def make(self):
        private.make_folder(self.above)
        private.make_folder(self.path)

    def owner(self):
        """The owner's key; NoKey where it isn't here."""
        if not os.path.exists(self.file("owner.key")):
            raise NoKey(f"the key folder {self.above} has no owner's key for this store: name the key folder that has it with --keys, "
                        "or a key to read with by --key FILE")
        private.check_folder(self.above)
        key = read_key(self.file("owner.key"), "owner")
        if not key.is_owner:
            raise BadKey(f"{self.file('owner.key')} has a holder's key in it: put the owner's back from its copy")
        return key

    def holder(self, name):
        """The key of a holder whose key file is still here."""
        path = self.file(checked_name(name) + ".key")
        if not os.path.exists(path):
            raise NoKey(f"the key of {name} isn't in the key folder {self.above}: check the name with who, or name the file that was "
                        "handed over with --key FILE")
        return read_key(path, name)
