"""The last head that was seen of a store, so that an older copy or another history of it is noticed, and never written on.

A head tells how many batches a log has and a hash over them (docs/FORMAT.md, "Heads"). The key folder has the last one in `last`, and
each reading and each writing has to be of a store that goes on from it. An owner who writes on an older copy seals other texts with numbers
that were used, and whoever has both copies reads what nobody was granted; a reader of one is shown what isn't so any more.

Before a reading the program is asked for the present head, and has to prove that it goes on from the kept one. A command that writes hands
the kept one to the program, which tests it itself before it draws or writes anything, and prints the last head when it is done.

    {"version": 2, "head": "7:HEX", "end": 2333, "begun": false}

`end` is where the log ended then. A batch that a stop hit stands behind those that the head tells until the next writing publishes it, so
a store that is to be written has to reach that end too.

Before a session `last` is marked as begun. Where the front end was killed then and nothing came behind the end, nobody can tell whether
the session wrote nothing or its store was put back: that is told too. Where something came behind it, no session after it takes the same
numbers, since each begins an epoch: a store that lost some of it goes on without harm.
"""
import json
import os
import re
from functools import cached_property
from typing import NamedTuple

from folder_store import older_form, private, program
from folder_store.faults import BadKey, Damaged, OlderCopy, behind, forked, warn
from folder_store.progress import Progress

HEADER, BATCH, SLOT_AT, SLOT = 42, 110, 13, 32
HEAD = re.compile(r"(0|[1-9][0-9]{0,9}):[0-9a-f]{64}")
TO_READ = "put the newest copy in its place; where you know that this is the copy you mean, --accept reads it as it is"
READ_SO = "read as it is: what it shows may be older than what was seen before, or never have been so"
WRITTEN_SO = ("taken as it is: if this is an older copy, then whoever has both copies can read what is written now, "
              "whether or not it was ever granted to them")


def places_in_log(handle):
    """Where each batch of the log begins, and last where it ends."""
    end, size = HEADER, os.fstat(handle).st_size
    while os.pread(handle, 1, end - 1) == b"\1":
        yield end
        head = os.pread(handle, SLOT_AT, end)
        after = end + BATCH + int.from_bytes(head[9:13], "big")
        if len(head) < SLOT_AT or after > size:
            raise Damaged(f"the store is damaged at {end}: put a good copy in its place")
        end = after
    yield end


def end_of_log(handle):
    """Where the log ends."""
    *_, end = places_in_log(handle)
    return end


def has_unpublished(handle):
    """Whether a stop left the last batch without its veil key, so that readings don't show it and the next opening for writing publishes it."""
    *before, _ = places_in_log(handle)
    return bool(before) and os.pread(handle, SLOT, before[-1] + SLOT_AT) == bytes(SLOT)


class Kept(NamedTuple):
    """What was kept. The version before kept no head, but what `older` has."""

    head: str | None
    end: int
    begun: bool
    older: tuple | None = None


def read(path):
    """What was kept; None where nothing was."""
    try:
        kept = json.loads(private.read(path))
        end, begun, is_older = kept["end"], kept["begun"], kept["version"] == 1
        if kept["version"] not in (1, 2) or not (isinstance(end, int) and HEADER <= end < 1 << 32) or not isinstance(begun, bool):
            raise ValueError
        if is_older:
            return Kept(None, end, begun, older_form.fields(kept))
        if not HEAD.fullmatch(kept["head"]):
            raise ValueError
        return Kept(kept["head"], end, begun)
    except FileNotFoundError:
        return None
    except (ValueError, KeyError, TypeError):
        raise BadKey(f"{path} isn't what this front end writes: take it away, and say --accept if the store is the newest") from None


def batches(head):
    """How many batches a head tells."""
    return int(head.split(":")[0])


def against(head, present, store, handle):
    """Why a store with this present head doesn't go on from an earlier one; None where it does."""
    if head == present:
        return None
    lines = program.proof(store, batches(head), handle)
    if lines is None:
        return behind(store, batches(present), batches(head))
    if not program.is_prefix(store, head, present, lines, handle):
        return forked(store, batches(head))
    return None


class Last:
    """What is kept of a store that this has locked. `head` is the last one that is known of it, kept or seen now; `present` and `cause` ask
    the program when they are first looked at."""

    def __init__(self, path, store, handle):
        self.path, self.store, self.handle, self.before = path, store, handle, None
        self.kept = read(path)
        self.head = self.kept and self.kept.head

    @cached_property
    def present(self):
        """The head that the store had when this was first asked for."""
        with Progress("reading the head of the store"):
            return program.head(self.store, self.handle)

    @cached_property
    def cause(self):
        """Why the store isn't one that goes on from what is kept; None where it is, or nothing is kept."""
        if self.kept is None:
            return None
        if self.kept.older is None:
            present = self.present
            with Progress("testing that the store goes on from what was seen"):
                return against(self.kept.head, present, self.store, self.handle)
        if older_form.goes_on(self.handle, self.kept.end, self.kept.older):
            return None
        return f"{self.store} doesn't go on from what was last written, so it is an older copy that was put back, or was written by another"

    def cause_by_its_end(self):
        """Why the store mustn't be written, as far as that is seen by where its log ends; None where it may be by that."""
        if self.kept is None:
            return f"the key folder doesn't know what was last written to {self.store}, so it may be an older copy"
        end = end_of_log(self.handle)
        if end < self.kept.end:
            return f"{self.store} ends before what was last written, so it is an older copy that was put back"
        if self.kept.begun and end == self.kept.end:
            return (f"a writing to {self.store} was killed, and nothing of it is here, so it had written nothing, or an older copy was put "
                    "back")
        return None

    def see_that_it_goes_on(self, accept):
        """Raises OlderCopy where it mustn't be written; with `accept` it tells what that means, and takes the store as it is."""
        cause = self.cause or self.cause_by_its_end()
        if cause and not accept:
            raise OlderCopy.to_write(cause)
        self.head = self.present
        if cause:
            warn(f"{cause}; {WRITTEN_SO}")
            self.put(False)

    def see_that_it_may_be_written(self, accept):
        """The same where the program is handed the kept head behind this: that one is tested there, and here what else tells against it."""
        if accept or self.head is None or self.cause_by_its_end():
            self.see_that_it_goes_on(accept)

    def see_that_it_may_be_read(self, accept):
        """Raises OlderCopy where it goes on from nothing that was seen; with `accept` that is told, and what is kept stays."""
        if self.cause and not accept:
            raise OlderCopy(f"{self.cause}; nothing was read: {TO_READ}")
        if self.cause:
            warn(f"{self.cause}; {READ_SO}")

    def mark(self):
        """Keeps that the store is to be written."""
        self.before = private.read(self.path).decode()
        self.put(True)

    def unmark(self):
        """Keeps what was kept before, where the program didn't get as far as to write."""
        private.replace(self.path, self.before)

    def write(self, printed):
        """Keeps the head that a writing printed, and gives where the log ends. One that was cut short printed none: then the present head
        has to go on from what was known, or the mark of the writing stays."""
        if printed is None:
            printed = program.head(self.store, self.handle)
            cause = against(self.head, printed, self.store, self.handle)
            if cause:
                raise OlderCopy(f"{cause}, while it was written: {OlderCopy.TO_WRITE}")
        self.head = printed
        return self.put(False)

    def keep_present(self):
        """Keeps the present head."""
        self.head = self.present
        self.put(False)

    def has_grown(self, is_owner):
        """Whether a reading saw more than is kept. What the owner wrote last is never made up from a reading alone."""
        kept = read(self.path)      # another reader may have kept more meanwhile
        if self.cause or kept is None:
            return not self.cause and not is_owner
        if kept.begun and end_of_log(self.handle) == kept.end:
            return False
        return kept.older is not None or batches(kept.head) < batches(self.present)

    def put(self, begun):
        end = end_of_log(self.handle)
        private.replace(self.path, json.dumps({"version": 2, "head": self.head, "end": end, "begun": begun}) + "\n")
        return end
