"""What a user is told where something wasn't done: one family of exceptions, with messages that say what it is and then what to do."""
import sys

from folder_store import limits

REFUSALS = {  # docs/PROGRAM.md has the words
    "bad-name": "that is no path or name of a store",
    "no-path": "nothing has that path",
    "is-root": "that can't be done to /",
    "not-folder": "a file stands there, not a folder",
    "is-folder": "a folder stands there, not a file",
    "exists": "something of that name stands there",
    "not-empty": "the folder has something in it",
    "inside-itself": "a folder can't go into itself",
    "too-deep": f"a path has at most {limits.DEPTH} names",
    "no-holder": "the store has no holder of that number",
    "has-grant": "the holder has that grant",
    "no-grant": "the holder doesn't have that grant",
    "too-long": f"a file in a store has at most {limits.FILE:,} bytes",
    "full": "the store is full: make a new one of what stands with renew",
}


class Fault(Exception):
    """Something wasn't done. Its text goes to standard error, and the command ends with its status. The program may have answered lines
    before it."""

    status, is_answered = 1, False


class BadWords(Fault):
    """The words of a call don't say what to do."""

    status = 2


class Refused(Fault):
    """The store refused a line, and no line behind it was tried; `done` lines before it stand."""

    def __init__(self, line, reply, done):
        word = reply.removeprefix("refused ")
        shown = line if len(line) <= 80 else line[:80] + "..."
        before = "nothing was done" if not done else f"{done} before it stand"
        super().__init__(f"the store refused {shown!r} ({word}): {REFUSALS.get(word, 'it gave no cause')}; {before}")
        self.line, self.reply, self.done = line, reply, done


class Hostile(Fault):
    """What was read isn't what the program and this front end write."""


class NoStore(Fault):
    """There is no file where a store is looked for, or none that can be opened."""


class NotAStore(Fault):
    """What stands there isn't a store."""


class WrongKey(Fault):
    """The key isn't one of this store."""


class Tampered(Fault):
    """A tag in the store is wrong."""


class Damaged(Fault):
    """Bytes of the store have no form."""


class NeedsUpgrade(Fault):
    """The store is of version 1, and isn't written before it's upgraded."""


class AlreadyNew(Fault):
    """The store is to be upgraded, and is of version 2 already."""


class NoSpace(Fault):
    """The disk is full."""


class Full(Fault):
    """The store has no room left for it."""


class Locked(Fault):
    """Another is at the store."""


class OlderCopy(Fault):
    """The store isn't a continuation of what was last written with this key folder."""

    TO_WRITE = ("put the newest copy in its place, or make a new store of this one with renew; only where it is the newest itself, "
                "say --accept, which takes it as it is")

    @classmethod
    def to_write(cls, cause):
        return cls(f"{cause}; nothing was written: {cls.TO_WRITE}")


class NoKey(Fault):
    """There is no key file where one is looked for."""


class BadKey(Fault):
    """A key file isn't what it has to be."""


def behind(store, count, seen):
    """Why a store of so many batches isn't what was seen, where more were."""
    return (f"{store} ends at batch {count}, and {seen} were seen before, so an older copy was put back, "
            "or this is another copy")


def forked(store, seen):
    """Why a store isn't what was seen, where its first so many batches are others."""
    return f"{store} isn't what it was at batch {seen}, so somebody wrote another history, as on an older copy"


def warn(text):
    """Tells something on standard error, in one line, whatever names are in it."""
    safe = "".join(letter if letter.isprintable() else ascii(letter)[1:-1] for letter in str(text))
    print(f"cryptree-folder: {safe}", file=sys.stderr, flush=True)
