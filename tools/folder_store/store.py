"""A store, locked for as long as one command is at it: what a key reads of it, and lines that the owner has it do."""
import binascii
import fcntl
import os
import re
import stat
import tempfile
from typing import NamedTuple

from folder_store import limits, places, private, program, room
from folder_store.faults import (AlreadyNew, BadKey, Damaged, Fault, Hostile, Locked, NeedsUpgrade, NoStore, NotAStore, OlderCopy, Refused,
                                 Tampered, WrongKey, warn)
from folder_store.holders import Holders
from folder_store.keys import KeyFolder, read_key
from folder_store.last import Last, end_of_log, has_unpublished
from folder_store.names import real_path, shown
from folder_store.progress import followed

TOLD, COPY = "told", "copy"     # how one that may be older is read: told that it is, or as a copy that is known to be one
UNOPENED = (NotAStore, Damaged, WrongKey, Tampered, OlderCopy, NeedsUpgrade, AlreadyNew)     # before an answer: nothing was written
MAGIC, IDENTITY_AT, HEADER = b"CRYPTREE\1", 9, 42
TAG = 33        # bytes of a batch's owner tag, which hangs on all before it, and of the gate behind it
NAME = rb"(?!\.\.?(?:[/ ]|\Z))[A-Za-z0-9._-]{1,%d}" % limits.NAME
LISTED = re.compile(rb"(?:(folder|ancestor) ((?:/" + NAME + rb")+|/)|(file) ((?:/" + NAME + rb")+) )")     # without a file's bytes
NUMBERS = rb" ([0-9]{1,10}) ([0-9]{1,10}) "
SEEN = re.compile(rb"(?:(folder)" + NUMBERS + rb"(" + NAME + rb"|)|(file)" + NUMBERS + rb"(" + NAME + rb") )")


class Line(NamedTuple):
    """One line of a listing: what stands at a path, and a file's bytes."""

    kind: str
    path: str
    data: bytes | None


class Seen(NamedTuple):
    """One line of an audit: a name or a file that a key leads to, old ones too, with the batch that wrote it."""

    kind: str
    batch: int
    number: int
    name: str
    data: bytes | None


def read_line(line, form, make):
    """A printed line as what it says, or Hostile. A file's digits are read by themselves: a pattern takes five times as long over them."""
    found = form.match(line)
    try:
        kind, *fields = (group for group in found.groups() if group is not None)
        digits = line[found.end():]
        data = binascii.unhexlify(digits) if kind == b"file" else None
        if digits != (b"" if data is None else digits.lower()):
            raise ValueError
    except (AttributeError, ValueError):
        raise Hostile(f"the program printed what it never prints, so nothing is taken from it: {line[:80]!r}") from None
    return make(kind.decode(), *(field.decode() for field in fields), data)


class Store:
    """A store between `open` and the end of its `with`."""

    def __init__(self, path, handle, keys, last=None):
        self.path, self.handle, self.keys, self.last = path, handle, keys, last
        self.writes = self.owner_read = self.is_tested = False
        self.end = None     # of the log, once something was written, until it's told how full the store is

    @classmethod
    def open(cls, path, keys_folder, writes, wait, accept=False, older=None):
        """The store, locked against writers, and to write against readers too. It has to go on from what was last seen of it, which to
        write is tested by the first call of the program. With `accept`, or with `older` to read, another is told and taken all the same; a
        copy that `restore` takes or made isn't asked."""
        handle = locked(path, writes, wait)
        try:
            store = cls(path, handle, KeyFolder(keys_folder, identity(path, handle)))
            if writes:
                store.keys.owner()
            places.check(path, store.keys, accept)
            store.writes = writes
            if writes:
                places.see_that_it_may_be_written(path, store.keys)
                store.last = store.asked_for_its_head()
                store.last.see_that_it_may_be_written(accept)
                places.keep(path, store.keys)
                store.publish()
            elif older != COPY and not places.is_restored(path, store.keys):
                store.last = store.asked_for_its_head()
                store.last.see_that_it_may_be_read(accept or older == TOLD)
            return store
        except BaseException:
            os.close(handle)
            raise

    def asked_for_its_head(self):
        return Last(self.keys.file("last"), self.path, self.handle)

    def __enter__(self):
        return self

    def __exit__(self, kind, *_):
        """Behind what was written how full the store is, is told once, and it has to have its name still."""
        try:
            end = self.taken_end()
            room.tell(self.path, end)
            if kind is None and end is not None:
                self.see_that_it_has_its_name()
            if kind is None and self.last and not self.writes:
                self.keep_head()
        finally:
            os.close(self.handle)

    def taken_end(self):
        """Where the log ends, if something was written and nobody was told of it; who takes that tells it."""
        end, self.end = self.end, None
        return end

    def see_that_it_has_its_name(self):
        """A Fault where another file has come to have the store's name since it was locked, or none, and what was written isn't in that one.
        There are disks that give one file several numbers, so those alone don't tell."""
        try:
            has_its_name = os.path.samestat(os.fstat(self.handle), os.stat(self.path)) or self.ends_as(self.path)
        except (OSError, Fault):
            has_its_name = False
        if not has_its_name:
            raise Fault(f"another file has come to be {self.path}, or none is, while it was written, so what was just written isn't there: look "
                        "for the file that was moved away, and put that back; what replaces files, as a synced folder does, is no place to write")

    def ends_as(self, path):
        """Whether the file of this path has the store's last batch where the store has it."""
        end = end_of_log(self.handle)
        handle = opened(path, writes=False)
        try:
            return os.pread(handle, TAG, end - TAG) == os.pread(self.handle, TAG, end - TAG)
        finally:
            os.close(handle)

    def keep_head(self):
        """Keeps the head that a reading saw; beside an owner's key one alone whose tags were tested with it, since anybody can add batches
        without. What was read is good without that, so where it can't be kept this is told only."""
        is_owner = os.path.exists(self.keys.file("owner.key"))
        try:
            if self.owner_read >= is_owner and self.last.has_grown(is_owner):
                self.keys.make()
                self.last.keep_present()
        except (Fault, OSError) as cause:
            warn(f"the head of {self.path} can't be kept ({cause}): an older copy of it won't be noticed")

    @property
    def owner(self):
        """The owner's key; NoKey where the key folder doesn't have it."""
        return self.keys.owner()

    @property
    def holders(self):
        """The record of holders' names, numbers and grants."""
        return Holders(self.keys.file("holders.json"))

    def key(self, holder=None, file=None):
        """The key to read with: a holder's by name, one in a file, or else the owner's."""
        return read_key(file, file) if file is not None else self.keys.holder(holder) if holder is not None else self.owner

    def listing(self, key):
        """What the key opens, in the order of paths."""
        return [read_line(line, LISTED, Line) for line in self.answer("list", key)]

    def audit(self, key):
        """What the key leads to, in the order of writing."""
        def seen(kind, batch, number, name, data):
            return Seen(kind, int(batch), int(number), name, data)
        return [read_line(line, SEEN, seen) for line in self.answer("audit", key)]

    def answer(self, command, key):
        """The lines of it; the first to one that is to write tests what it goes on from."""
        head = self.last.head if self.writes and not self.is_tested else None
        yield from followed(program.answer(self.path, command, key.line, self.handle, head), f"reading {shown(self.path)}")
        self.is_tested = True
        self.owner_read |= key.is_owner

    def run(self, lines):
        """Has the store do these lines, one after another, and gives the replies. It stops at the first refusal. What doesn't go into one
        session goes on in another, which is handed no head: a store of 1 GB would be read some 60 times more."""
        replies, session, holders, head = [], None, self.holders, self.last.head
        try:
            for line in lines:
                if not line.isascii() or "\n" in line:
                    raise Fault(f"no line for a store: {line[:80]!r}")
                if session and not session.has_room(line):
                    session.end()
                    self.last.head, head, session = session.head or self.last.head, None, None
                session = session or self.begun(head)
                reply = session.say(line)
                if reply.startswith("refused "):
                    raise Refused(line, reply, len(replies))
                replies.append(reply)
                for name, path in holders.follow(line):
                    warn(f"the grant of {name} on {real_path(path)} went with it: if that was only renamed, grant the new one")
        finally:
            if session:
                self.ended(session)
        return replies

    def see_that_are_done(self, lines, settled="ok"):
        """Has the store do these lines, save those that it answers in these words, since they were done before. The record of grants doesn't
        follow."""
        session = self.begun(self.last.head)
        try:
            for done, line in enumerate(lines):
                reply = session.say(line)
                if reply not in ("ok", settled):
                    raise Refused(line, reply, done)
        finally:
            self.ended(session)

    def publish(self):
        """Publishes the batch that a stop hit, if one did: an opening for writing does. Else what is planned by a reading, which doesn't show
        it, isn't what lines meet. A store of version 1 is opened too, though it takes no line."""
        if has_unpublished(self.handle):
            try:
                self.ended(self.begun(self.last.head))
            except NeedsUpgrade:
                pass

    def begun(self, head):
        """A session with the store, which has to go on from a head, marked as begun beside the key."""
        self.last.mark()
        return program.Session(self.path, self.owner.line, self.handle, head)

    def ended(self, session):
        """Ends a session, and keeps what it left."""
        try:
            session.end()
        finally:
            self.keep_what_is_left(session.failure, session.head)

    def keep_what_is_left(self, failure, head):
        """Keeps what a writing left that ended so, with None where nothing failed, and that printed this head, or none. What comes behind
        an answer, as a wrong tag at the last head, doesn't tell that nothing was written."""
        if isinstance(failure, UNOPENED) and not failure.is_answered:
            self.last.unmark()
        else:
            self.end = self.last.write(head)

    def upgrade(self):
        """Makes the store one of version 2; AlreadyNew where it is one."""
        failure = head = None
        self.last.mark()
        try:
            reply, head = program.upgraded(self.path, self.owner.line, self.handle, self.last.head)
        except Fault as cause:
            failure = cause
            raise
        finally:
            self.keep_what_is_left(failure, head)
        if reply != "ok":
            raise Refused("upgrade", reply, 0)

    def replace(self, number, place):
        """Replaces a holder, and gives how many grants went over to the new one. What is replied goes into a new file of this place."""
        failure = head = None
        self.last.mark()
        try:
            replies, head = program.replaced(self.path, self.owner.line, self.handle, self.last.head, number, place)
        except Fault as cause:
            failure = cause
            raise
        finally:
            self.keep_what_is_left(failure, head)
        if replies[-1].startswith("refused "):
            raise Refused(f"replace {number}", replies[-1], len(replies) - 1)
        return len(replies) // 2


def opened(path, writes):
    """The store's file, without waiting for what isn't one."""
    try:
        if stat.S_ISREG(os.stat(path).st_mode):
            handle = os.open(path, (os.O_RDWR if writes else os.O_RDONLY) | os.O_NONBLOCK | os.O_CLOEXEC)
            if stat.S_ISREG(os.fstat(handle).st_mode):
                return handle
            os.close(handle)
    except (FileNotFoundError, NotADirectoryError):
        raise NoStore(f"there is no store {path}: check the path, or make one with init") from None
    except OSError as error:
        raise NoStore(f"{path} can't be opened ({error.strerror}): see to its mode and owner, and to the folders above it") from None
    kind = "a folder" if os.path.isdir(path) else "a pipe, a device or a socket"
    raise NotAStore(f"{path} is {kind}, not a store: name the store's file")


def locked(path, writes, wait):
    """The store's file with the lock on it; it's the file of that path still when the lock is there."""
    while True:
        handle = opened(path, writes)
        try:
            lock(path, handle, fcntl.LOCK_EX if writes else fcntl.LOCK_SH, wait)
            there = os.stat(path)
            if os.path.samestat(os.fstat(handle), there):
                return handle
        except FileNotFoundError:
            pass
        except BaseException:
            os.close(handle)
            raise
        os.close(handle)


def lock(path, handle, how, wait):
    """Waits for the lock, and says so, or tells that another has it."""
    try:
        fcntl.flock(handle, how | fcntl.LOCK_NB)
    except BlockingIOError:
        if not wait:
            raise Locked(f"another is at {path}: wait until it's done, or leave out --no-wait") from None
        warn(f"waiting for another that is at {path}")
        fcntl.flock(handle, how)
    except OSError as error:
        raise Fault(f"{path} can't be locked ({error.strerror}), and two writers at once destroy a store: "
                    "move it to a disk with locks") from None


def identity(path, handle):
    """The check of the owner's key, from the store's header."""
    header = os.pread(handle, HEADER, 0)
    if not header:
        raise NotAStore(f"{path} is empty, as a stopped `make` leaves it: take it away, and put the store there or make one with init")
    if len(header) < HEADER or not header.startswith(MAGIC):
        raise NotAStore(f"{path} is not a store of this version: check the path")
    return header[IDENTITY_AT:HEADER - 1]


def make(path, keys_folder):
    """A new store with its owner's key, which stands in the key folder before the store has its name; so a stop leaves no store without
    its key. Gives the folder of its keys."""
    if os.path.lexists(path):
        raise Fault(f"{path} stands there already: init never writes over anything, name another file")
    private.make_folder(KeyFolder(keys_folder, b"").above)
    place = os.path.abspath(path)
    handle, temporary = tempfile.mkstemp(prefix=".cryptree-", dir=os.path.dirname(place))
    try:
        line = program.made(temporary, path)
        keys = KeyFolder(keys_folder, identity(path, handle))
        keys.make()
        with private.NewFile(keys.file("owner.key")) as file:
            file.put(line + "\n")
        Holders(keys.file("holders.json")).save()
        Last(keys.file("last"), temporary, handle).keep_present()
        private.settle(temporary, place)
        places.keep(path, keys)
    except FileExistsError:
        raise Fault(f"{path} has come to stand there meanwhile: it's left as it is, name another file") from None
    finally:
        os.close(handle)
        if os.path.lexists(temporary):
            os.unlink(temporary)
    return keys


def take_in(path, keys_folder, key, wait, accept, is_copy=False):
    """Takes a store that was made without this front end, or whose key folder is gone, into the key folder: it gets a file with this
    owner's key, as `make` would have left it. A copy isn't taken as what was written last. Gives the folder of its keys."""
    if not key.is_owner:
        raise BadKey(f"{key.name} has a holder's key in it, and a store is taken in by its owner's: name the file that has it with --key")
    handle = locked(path, False, wait)
    try:
        keys = KeyFolder(keys_folder, identity(path, handle))
        if os.path.lexists(keys.file("owner.key")):
            raise Fault(f"the owner's key of {path} is in the key folder already, in {keys.path}: go on with it")
        for _ in program.answer(path, "list", key.line, handle):
            pass
        places.check(path, keys, accept)
        last = Last(keys.file("last"), path, handle)
        if last.kept is not None and not is_copy:
            last.see_that_it_goes_on(accept)
        keys.make()
        with private.NewFile(keys.file("owner.key")) as file:
            file.put(key.line + "\n")
        if not os.path.exists(keys.file("holders.json")):
            Holders(keys.file("holders.json")).save()
        if not is_copy:
            last.keep_present()
            places.keep(path, keys)
    finally:
        os.close(handle)
    return keys
