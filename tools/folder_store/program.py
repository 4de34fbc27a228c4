"""Calls of the proved program `cryptree`: where it is, one question or a session with it, and what its statuses mean to a user."""
import os
import re
import shutil
import subprocess

from folder_store import limits, private
from folder_store.faults import (AlreadyNew, Damaged, Fault, Hostile, NeedsUpgrade, NoSpace, NotAStore, OlderCopy, Tampered, WrongKey,
                                 behind, forked)

RANDOM = "/dev/urandom"     # an ordinary file would give the first holder the owner's key
PIECE = 4096                # what goes into a pipe whole or not at all
BEHIND, FORKED, BAD_PROOF = 19, 20, 21     # statuses of `prove`, of what is handed a head, and of `check`
HEAD = re.compile(rb"head ((?:0|[1-9][0-9]{0,9}):[0-9a-f]{64})\n")
MARK, MARKED = "\nrm /", "refused is-root"     # a line that is always refused, and its reply
ALMOST_NOTHING = 2 * limits.FILE     # free bytes on a disk that count as full: a command writes up to a file of the largest and its keys
LIBRARY = os.path.dirname(os.path.dirname(os.path.abspath(__file__)))     # tools/ of the tree, or PREFIX/lib/cryptree
BESIDE = os.path.join(*([LIBRARY, "..", "..", "bin"] if LIBRARY.endswith("/lib/cryptree") else [LIBRARY, "..", "build"]), "cryptree")


def find():
    """The path of the program: $CRYPTREE, else the one that was built or installed with this front end, else `cryptree` on the PATH."""
    named = os.environ.get("CRYPTREE")
    found = named or (BESIDE if os.access(BESIDE, os.X_OK) else shutil.which("cryptree"))
    if not found or not os.access(found, os.X_OK) or os.path.isdir(found):
        where = f"$CRYPTREE names {named}, which can't be run" if named else "it's neither beside this front end nor on the PATH"
        raise Fault(f"the program cryptree isn't there, {where}: build it with ./demo, or set CRYPTREE to where it is")
    return os.path.abspath(found)


def start(store, *command, lock=None, **how):
    """The program at work on this store, with a command and what it takes: on the very file that has this lock, where one is named, whatever
    comes to have the store's name meanwhile. The lock is then the program's too."""
    try:
        os.fsencode(store).decode()
    except UnicodeDecodeError:
        raise Fault(f"the store's path {store!r} isn't UTF-8, which the program asks for: rename it") from None
    opened = f"/proc/self/fd/{lock}"
    path = opened if lock is not None and os.path.exists(opened) else os.path.abspath(store)
    return subprocess.Popen([find(), path, RANDOM, *command], bufsize=0, stderr=subprocess.PIPE, start_new_session=True,
                            pass_fds=() if lock is None else (lock,), **{"stdout": subprocess.PIPE} | how)


def made(file, store):
    """Makes a store in an empty file, which is to have the second name, and gives the owner's line."""
    with start(file, "make", stdin=subprocess.DEVNULL) as process:
        line, said = process.communicate()
    if process.returncode:
        raise fault(store, process.returncode, said)
    return line.decode("ascii").rstrip("\n")


def answer(store, command, key_line, lock, head=None):
    """The lines that `list` or `audit` prints to this key, one after another, without newlines; with a head OlderCopy where the store
    doesn't go on from it. Whoever takes them has to throw them away where a fault comes at their end."""
    with start(store, *with_head(command, head), lock=lock, stdin=subprocess.PIPE) as process:
        try:
            process.stdin.write(key_line.encode("ascii") + b"\n")
        except BrokenPipeError:
            pass
        process.stdin.close()
        with open(process.stdout.fileno(), "rb", buffering=1 << 20, closefd=False) as printed:
            for line in printed:
                yield line.removesuffix(b"\n")
        said = process.stderr.read()
    if process.returncode:
        raise fault(store, process.returncode, said)


def upgraded(store, owner_line, lock, head):
    """The reply to the owner who makes a store that goes on from a head one of version 2, `ok` or a refusal, and its last head."""
    status, printed, said = asked(store, ["upgrade", head], lock, owner_line.encode("ascii") + b"\n")
    if status:
        raise fault(store, status, said, bool(printed))
    reply, _, last = printed.partition(b"\n")
    return reply.decode("ascii"), read_head(last)


def replaced(store, owner_line, lock, head, number, place):
    """Has a holder replaced in a store that goes on from a head. All that the program prints goes into a new file of this place, where each
    reply stands before the next command is done. Gives the replies and the last head."""
    with private.synced(place) as file, start(store, "run", head, lock=lock, stdin=subprocess.PIPE, stdout=file) as process:
        _, said = process.communicate(f"{owner_line}\nreplace {number}\n".encode("ascii"))
    *replies, last = private.read(place).splitlines(True) or [b""]
    if process.returncode:
        raise fault(store, process.returncode, said, bool(last))
    return [reply.decode("ascii").rstrip("\n") for reply in replies], read_head(last)


def asked(store, command, lock, typed=b""):
    """The status of a call that is typed at once, what it printed and what it said."""
    with start(store, *command, lock=lock, stdin=subprocess.PIPE) as process:
        printed, said = process.communicate(typed)
    return process.returncode, printed, said


def head(store, lock):
    """The head of a store's log, `N:HEX`."""
    status, printed, said = asked(store, ["head"], lock)
    if status:
        raise fault(store, status, said)
    return read_head(printed)


def read_head(printed):
    """The head in a printed line of one."""
    found = HEAD.fullmatch(printed)
    if not found:
        raise Hostile(f"the program printed what it never prints, so nothing more is done: {printed[:80]!r}")
    return found.group(1).decode()


def with_head(command, head):
    return [command] if head is None else [command, head]


def proof(store, count, lock):
    """The lines that prove what the log was at so many batches; None where it has fewer."""
    status, printed, said = asked(store, ["prove", str(count)], lock)
    if status not in (0, BEHIND):
        raise fault(store, status, said)
    return None if status else printed


def is_prefix(store, old, new, lines, lock):
    """Whether these lines prove that the log with the head `new` goes on from the one with the head `old`."""
    status, _, said = asked(store, ["check", old, new], lock, lines)
    if status not in (0, BAD_PROOF):
        raise fault(store, status, said)
    return status == 0


class Session:
    """One opening for writing. Each line is answered before the next is sent; the lock on the store is the program's too, so that it's
    held until both have ended, however they end. One with a head is of a store that goes on from it, and at its end has the last one."""

    command = "run"

    def __init__(self, store, owner_line, lock, head=None):
        self.store, self.room, self.failure, self.is_answered = store, limits.INPUT, None, False
        self.has_head, self.head = head is not None, None
        self.process = start(store, *with_head(self.command, head), lock=lock, stdin=subprocess.PIPE)
        self.printed = open(self.process.stdout.fileno(), "rb", closefd=False)
        self.send(owner_line)

    def has_room(self, line):
        return len(line.encode()) + 1 <= self.room

    def send(self, line):
        """Puts a line into the pipe, in pieces of which none ends where a stop of the front end would leave another whole line: bytes are
        pairs of digits, and each piece but the last ends within a pair."""
        data = line.encode() + b"\n"
        self.room -= len(data)
        words = line.split(" ") if len(data) > PIECE else []
        if len(words) == 3 and words[0] == "write":
            head = len("write  ") + len(words[1]) + 1
            cut = max(head, PIECE - (PIECE - head) % 2)
            pieces = [data[:cut], *(data[at:at + PIECE] for at in range(cut, len(data), PIECE))]
        else:
            pieces = [data]     # it goes into an empty pipe, which has room for 65,536 bytes
        try:
            for piece in pieces:
                written = self.process.stdin.write(piece)
                while written < len(piece):
                    written += self.process.stdin.write(piece[written:])
        except BrokenPipeError:
            pass        # the program ended: its status tells why, where its answer is looked for

    def say(self, line):
        """The reply to a line."""
        self.send(line)
        return self.reply(line)

    def reply(self, line):
        """The next line that is printed, which replies to this one."""
        reply = self.printed.readline()
        if not reply.endswith(b"\n"):
            self.has_head = False
            self.end()
            raise Fault(f"the program ended without an answer to a line: {line[:80]!r}")
        self.is_answered = True
        return reply.decode("ascii").rstrip("\n")

    def end(self):
        """Waits for the program's end, and raises what its status tells, once."""
        if self.process.stdin.closed:
            return
        self.process.stdin.close()
        rest = self.printed.read()
        status, said = self.process.wait(), self.process.stderr.read()
        self.printed.close()
        self.process.stdout.close()
        self.process.stderr.close()
        if status:
            self.failure = fault(self.store, status, said, self.is_answered)
            raise self.failure
        if self.has_head:
            self.head = read_head(rest)


class Serve(Session):
    """One opening for writing that takes the lines of readers' sessions too."""

    command, begun = "serve", 0

    @property
    def is_half_spent(self):
        return self.begun > limits.SESSIONS // 2 or self.room < limits.INPUT // 2

    def turn(self, line):
        """All that a line is answered. How many replies a replacement has isn't told, so behind it goes a line that is always refused."""
        self.begun += line.startswith("session ")
        self.send(line + MARK * line.startswith("replace "))
        replies = [self.reply(line)]
        while not self.is_last(line, replies[-1]):
            replies.append(self.reply(line))
        return "".join(reply + "\n" for reply in (replies[:-1] if line.startswith("replace ") else replies))

    def is_last(self, line, reply):
        if line.startswith("replace "):
            return reply == MARKED
        return not line.startswith("show ") or reply == "end" or reply.startswith("refused ")


def fault(store, status, said, is_answered=False):
    """What this status of the program, and what it said, mean to a user, behind answers or not."""
    found = fault_of(store, status, said)
    found.is_answered = is_answered
    return found


def fault_of(store, status, said):
    said = said.decode("utf-8", "replace").strip().removeprefix("cryptree: ")
    if status in (6, 14):
        return disk_fault(store, status)
    if status in (BEHIND, FORKED):
        return OlderCopy.to_write(no_continuation(store, said))
    older = "put a good copy beside it and read that; never write on it"
    kinds = {
        7: (Fault, f"the system's random source {RANDOM} can't be read: see to it that it's there"),
        8: (Fault, f"the system's random source {RANDOM} ended: see to it that it's the system's own"),
        9: (NotAStore, f"{store} is not a store, or can't be read: check the path"),
        10: (Damaged, f"{store} is damaged ({said}): {older}"),
        11: (WrongKey, f"this key is not one of {store}: name the key of this store with --keys, --as or --key"),
        12: (Tampered, f"{store} was tampered with ({said}): {older}"),
        13: (Fault, f"there was no memory for what {store} holds: free some, and do it again"),
        15: (WrongKey, f"{store} has no such holder ({said}): the key is another store's, or this is an older copy of the store"),
        16: (Fault, "nothing that the key opens has this path: check it with ls"),
        17: (NeedsUpgrade, f"{store} is of version 1, which is read and not written: make it one of version 2 with upgrade"),
        18: (AlreadyNew, f"{store} is of version 2 already: there's nothing to do"),
    }
    if status in kinds:
        kind, text = kinds[status]
        return kind(text)
    how = f"was ended by signal {-status}" if status < 0 else f"ended with status {status} ({said})"
    return Fault(f"the program {how}: what was answered before stands; do it again, or tell its makers")


def no_continuation(store, said):
    """Why a store isn't one that goes on from the head which the program was handed."""
    numbers = re.findall(r"[0-9]+", said)
    return behind(store, *numbers) if len(numbers) == 2 else forked(store, *numbers[:1] or ["that was seen"])


def disk_fault(store, status):
    """Why the store's file couldn't be written or read, as far as the disk can tell."""
    try:
        disk = os.statvfs(os.path.dirname(os.path.abspath(store)))
        if disk.f_bavail * disk.f_frsize < ALMOST_NOTHING:
            return NoSpace(f"the disk that {store} is on is full: make room, and do it again")
        if status == 14:
            return Fault(f"something stands in {store}: nothing is written over it")
        if not os.access(store, os.W_OK):
            return Fault(f"{store} can't be written: change its mode or its owner (chmod u+w), or the disk's")
    except OSError:
        pass
    return Fault(f"the disk failed under {store}: what was answered before stands; look after the disk, and do it again")
