"""What the front end's bridge promises, asked of it over a socket: sessions of its clients' own, commands of who has the owner's key, and
that nobody's line, or leaving, ends the others."""
import os
import signal
import socket

from fed_lines import is_whole
from front_calls import expect_told, front, started
from front_keys import done, fresh, key_file
from harness import read
from store_limits import FILE_LIMIT

LIMIT = 120  # seconds in which an answer is there, on a busy machine too
LINES = (b"mkdir /trip", b"write /trip/notes 6869", b"grant 1 /trip")
VIEW = b"ancestor /\nfolder /trip\nfile /trip/notes 6869\nend\n"
BAD = (b"", b"step", b"step 0", b"step 1 ", b"session 1", b"mkdir", b"mkdir /a /b", b"write /a 0", b"hello", b"grant 4294967296 /",
       b"replace 0", b"owner 00", b"holder 1", b"mkdir /\xff", b"show -1")


class Guest:
    """A client of a bridge."""

    def __init__(self, place):
        self.socket = socket.socket(socket.AF_UNIX)
        self.socket.settimeout(LIMIT)
        self.socket.connect(place)
        self.answers = self.socket.makefile("rb")

    def say(self, line, end=b"\n"):
        """What a line is answered."""
        self.socket.sendall(line + end)
        found = reply = self.answers.readline()
        while reply and line.startswith(b"show ") and not is_whole(line, found):
            reply = self.answers.readline()
            found += reply
        return found

    def leave(self):
        self.answers.close()
        self.socket.close()


class Bridged:
    """A bridge over a store."""

    def __init__(self, check, store, *words):
        self.check, self.place = check, os.path.join(check.folder, "socket")
        self.process = started(check, store, "bridge", self.place, *words)
        self.said = self.process.stdout.readline()

    def guest(self):
        return Guest(self.place)

    def ended(self, number=signal.SIGTERM):
        """How it ends at a signal: its status, what it says, and whether its socket is gone."""
        self.process.send_signal(number)
        _, said = self.process.communicate()
        return self.process.returncode, said, os.path.exists(self.place)


def all_bridges(check):
    for part in (turns, strangers, many, unserved, replaced):
        part(check)


def with_holder(check, name):
    """A new store with a holder, and the lines of both keys."""
    store = fresh(check, name)
    done(check, "holder add", front(check, store, "holder", "add", "ann"))
    owner, holder = (read(key_file(check, store, name))[:-1] for name in ("owner.key", "ann.key"))
    return store, owner, holder.replace(b"holder", b"session")


def turns(check):
    """The owner and two readers take turns; what the bridge did is what the front end finds behind it."""
    store, owner, key = with_holder(check, "bridged.store")
    bridged = Bridged(check, store)
    check.expect("what it prints", bridged.said, f"serving {store} at {bridged.place}\n".encode())
    check.expect("the socket's mode", os.stat(bridged.place).st_mode & 0o077, 0)
    writer, one, other = bridged.guest(), bridged.guest(), bridged.guest()
    check.expect("another's command", one.say(LINES[0]), b"refused not-owner\n")
    check.expect("another owner's key", writer.say(b"owner " + b"0" * 64), b"refused wrong-key\n")
    check.expect("and then", writer.say(LINES[0]), b"refused not-owner\n")
    check.expect("the owner's", [writer.say(line) for line in (owner, *LINES)], [b"ok\n"] * 4)
    check.expect("a refusal", writer.say(b"rm /"), b"refused is-root\n")
    check.expect("sessions of one", [one.say(key), one.say(key)], [b"session 1 of 8\n", b"session 2 of 8\n"])
    check.expect("a session of another", other.say(key), b"session 1 of 8\n")
    check.expect("which has no more", [other.say(line) for line in (b"step 2", b"show 3", b"pin 2")], [b"refused no-session\n"] * 3)
    for number in range(1, 9):
        due = b"read %d of 8\n" % number
        check.expect("steps in turns", [one.say(b"step 2"), other.say(b"step 1")], [due, due])
    check.expect("views", [one.say(b"show 2"), other.say(b"show 1"), one.say(b"show 1")], [VIEW, VIEW, b"refused not-read\n"])
    check.expect("bad lines", [other.say(bad) for bad in BAD], [b"refused bad-line\n"] * len(BAD))
    one.leave()
    check.expect("a client that left", writer.say(b"revoke 1 /trip"), b"ok\n")
    check.expect("and the others go on", [other.say(line) for line in (b"show 1", b"pin 1", b"step 1", b"show 1")],
                 [VIEW, b"pinned 9\n", b"read 9 of 9\n", b"end\n"])
    replaced = writer.say(b"replace 1")
    check.expect("a replacement", replaced.startswith(b"holder 2 "), True)
    expect_told(check, "another command meanwhile", front(check, store, "ls", "--no-wait"), 1, "another is at")
    check.expect("its end", bridged.ended(), (0, b"", False))
    check.expect("what it wrote stands", done(check, "cat", front(check, store, "cat", "/trip/notes")), b"hi")
    check.expect("and is recorded", done(check, "who", front(check, store, "who")).split()[-1], b"-")


def strangers(check):
    """Clients that stop in the midst: of a line, of an answer, or with the other half of the connection open."""
    store, owner, key = with_holder(check, "strangers.store")
    bridged = Bridged(check, store)
    writer, half, deaf, long = (bridged.guest() for _ in range(4))
    writer.say(owner)
    half.socket.sendall(b"owner " + owner[6:40])
    check.expect("beside half a line", writer.say(LINES[0]), b"ok\n")
    check.expect("a large file", writer.say(b"write /trip/large " + b"5a" * FILE_LIMIT), b"ok\n")
    check.expect("one that is too large", writer.say(b"write /trip/large " + b"5a" * (FILE_LIMIT + 1)), b"refused too-long\n")
    check.expect("a grant", writer.say(b"grant 1 /trip"), b"ok\n")
    deaf.socket.sendall(b"\n".join([key, *[b"step 1"] * 8, *[b"show 1"] * 20, b""]))
    check.expect("beside one that takes nothing", [writer.say(b"mkdir /d%d" % n) for n in range(20)], [b"ok\n"] * 20)
    deaf.leave()
    half.leave()
    check.expect("a line without end", long.say(b"x" * (4 << 20), b""), b"refused bad-line\n")
    check.expect("and behind it", long.say(b"x\nstep 1"), b"refused no-session\n")
    last = bridged.guest()
    last.socket.sendall(key + b"\nstep 1")
    last.socket.shutdown(socket.SHUT_WR)
    check.expect("a last line without its end", last.answers.read(), b"session 1 of 28\nread 1 of 28\n")
    check.expect("and it goes on", writer.say(b"mkdir /last"), b"ok\n")
    check.expect("its end, by ^C", bridged.ended(signal.SIGINT), (0, b"", False))


def many(check):
    """More sessions than one program takes: once no client has any of them another one serves."""
    store, _, key = with_holder(check, "many.store")
    bridged = Bridged(check, store)
    staying = bridged.guest()
    check.expect("one who stays", staying.say(b"step 1"), b"refused no-session\n")
    for _ in (1, 2):
        one, other = bridged.guest(), bridged.guest()
        check.expect("the last sessions", [one.say(key) for _ in range(255)][-1], b"session 255 of 4\n")
        check.expect("and one more", [other.say(key) for _ in (1, 2)], [b"session 1 of 4\n", b"refused too-many\n"])
        one.leave()
        check.expect("one client is left", (other.say(key), other.say(b"step 1")), (b"refused too-many\n", b"read 1 of 4\n"))
        other.leave()
    check.expect("and who stayed", staying.say(b"step 1"), b"refused no-session\n")
    check.expect("its end", bridged.ended(signal.SIGHUP), (0, b"", False))


def unserved(check):
    """What a bridge isn't begun for, and one whose program ends."""
    store, owner, key = with_holder(check, "unserved.store")
    there = check.put("there", b"")
    expect_told(check, "no socket", front(check, store, "bridge", there), 1, "stands there already")
    for what, place in (("no folder for it", os.path.join("none", "socket")), ("too long a path", "s" * 120)):
        expect_told(check, what, front(check, store, "bridge", os.path.join(check.folder, place)), 1, "no socket can be made")
    bridged = Bridged(check, store)
    bridged.process.kill()
    bridged.process.communicate()
    expect_told(check, "a killed one", front(check, store, "bridge", bridged.place), 1, "was killed")
    bridged = Bridged(check, store, "--accept")
    guest = bridged.guest()
    check.expect("begun anew where it was", [guest.say(line) for line in (owner, key)], [b"ok\n", b"session 1 of 4\n"])
    with open(store, "r+b") as file:
        file.truncate(1000)
    check.expect("a store that is cut below it", guest.say(b"pin 1"), b"")
    _, said = bridged.process.communicate()
    check.expect("how it ends", (bridged.process.returncode, b"damaged" in said), (1, True))


def replaced(check):
    """Another file that comes to be the store: a command isn't in it, and so isn't answered."""
    store, owner, key = with_holder(check, "displaced.store")
    copy = check.put("displaced.copy", read(store))
    bridged = Bridged(check, store)
    guest = bridged.guest()
    check.expect("before", [guest.say(line) for line in (owner, key)], [b"ok\n", b"session 1 of 4\n"])
    os.replace(copy, store)
    check.expect("a line that reads", guest.say(b"step 1"), b"read 1 of 4\n")
    check.expect("one that writes", guest.say(LINES[0]), b"")
    _, said = bridged.process.communicate()
    check.expect("how it ends", (bridged.process.returncode, b"isn't there" in said), (1, True))
