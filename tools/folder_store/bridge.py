"""One store for many who come and go: the command bridge. It holds the lock and one `serve`, whose lines clients of a socket type in turns.

Each client has sessions of its own, numbered from 1, and none sees another's. Commands are taken of who typed the owner's line before. A line
without a form, which would end the program, is refused here. The program takes so many sessions and bytes (limits.py), so it is ended, and
begun anew by the next line, when no client is there, and where it's half spent when none that is there has a session.
"""
import hmac
import os
import re
import select
import signal
import socket
import stat

from folder_store import limits, program
from folder_store.entry import opened
from folder_store.faults import Fault, warn
from folder_store.names import real_path

CLIENTS = 128               # at once; those behind wait
PIECE = 1 << 16
LONGEST = 3 * limits.FILE   # bytes of a line: one that writes a whole file has fewer
WAITING = 1 << 20           # bytes that a client hasn't taken, while which it is read no further

NUMBER, HEX64, FIELD = r"[1-9][0-9]{0,9}", r"[0-9A-Fa-f]{64}", r"[!-~\x00-\x09\x0b-\x1f\x7f]+"
OWNER = re.compile(f"owner ({HEX64})")
BEGIN = re.compile(f"session ({NUMBER}) {HEX64}")
TURN = re.compile(f"(step|pin|show) ({NUMBER})")
COMMAND = re.compile(rf"holder|(?:mkdir|rm) {FIELD}|write {FIELD}(?: (?:[0-9A-Fa-f]{{2}})*)?|(?:rename|move) {FIELD} {FIELD}"
                     rf"|(?:grant|revoke) ({NUMBER}) {FIELD}|replace ({NUMBER})")
MOST = (1 << 32) - 1        # of numbers


def add_commands(add):
    words = add("bridge", bridge, "serves the store to clients of a socket: sessions that read, and commands for who types the owner's line")
    words.add_argument("socket", metavar="SOCKET", help="the socket's path, which nobody else may get to until its mode is changed")


def bridge(words):
    """Serves until a signal ends it, or the program does."""
    with opened(words, writes=True) as store, Signals() as ended, Listener(words.socket) as listener:
        Bridge(store, listener.socket, ended).serve_all(f"serving {words.store} at {words.socket}")


class Signals:
    """What a signal that ends this makes readable: no line is left half done."""

    def __enter__(self):
        self.told, self.teller = socket.socketpair()
        self.before = {number: signal.signal(number, lambda *_: self.teller.send(b"."))
                       for number in (signal.SIGINT, signal.SIGTERM, signal.SIGHUP)}
        return self.told

    def __exit__(self, *_):
        for number, handler in self.before.items():
            signal.signal(number, handler)
        self.told.close()
        self.teller.close()


class Listener:
    """A new socket of this path, taken away at the end; one that nobody listens at any more is made anew."""

    def __init__(self, path):
        self.path, self.socket = path, socket.socket(socket.AF_UNIX)

    def __enter__(self):
        try:
            self.forget_a_dead_one()
            self.socket.bind(self.path)
            self.socket.listen()
        except OSError as error:
            self.socket.close()
            raise Fault(f"no socket can be made at {self.path} ({error.strerror or error}): name another place") from None
        return self

    def forget_a_dead_one(self):
        try:
            if not stat.S_ISSOCK(os.lstat(self.path).st_mode):
                raise Fault(f"{self.path} stands there already, and is no socket: name another place")
            with socket.socket(socket.AF_UNIX) as asking:
                asking.connect(self.path)
            raise Fault(f"another bridge is at {self.path}: name another place")
        except ConnectionRefusedError:
            os.unlink(self.path)
        except FileNotFoundError:
            pass

    def __exit__(self, *_):
        self.socket.close()
        os.unlink(self.path)


class Client:
    """One who is there: what it typed and isn't answered yet, what it hasn't taken yet, and the program's numbers of its sessions."""

    def __init__(self, connection):
        self.connection, self.typed, self.answers, self.seats = connection, b"", b"", []
        self.is_owner = self.has_ended = self.skips = False
        connection.setblocking(False)

    def fileno(self):
        return self.connection.fileno()

    @property
    def has_line(self):
        return len(self.answers) < WAITING and (b"\n" in self.typed or self.has_ended and self.typed != b"")

    @property
    def has_left(self):
        return self.has_ended and not self.typed and not self.answers

    def line(self):
        """The next line, without its end, which the last one may lack; None where it can't be one of a store."""
        line, _, self.typed = self.typed.partition(b"\n")
        return line.decode("ascii") if line.isascii() else None

    def read(self):
        """Takes what it typed. A line that is longer than any may be is answered before its end, which is then skipped."""
        try:
            piece = self.connection.recv(PIECE)
        except BlockingIOError:
            return
        except OSError:
            return self.leave()
        self.typed, self.has_ended = self.typed + piece, piece == b""
        if self.skips:
            _, end, self.typed = self.typed.partition(b"\n")
            self.skips = not end
        elif len(self.typed) > LONGEST and b"\n" not in self.typed:
            self.typed, self.skips, self.answers = b"", True, self.answers + b"refused bad-line\n"

    def write(self):
        try:
            self.answers = self.answers[self.connection.send(self.answers):]
        except BlockingIOError:
            pass
        except OSError:
            self.leave()

    def leave(self):
        """It takes nothing any more: what it typed and wasn't answered isn't done."""
        self.typed, self.answers, self.has_ended = b"", b"", True


class Bridge:
    """The clients of a store, and the program that serves them while one is there."""

    def __init__(self, store, listener, ended):
        self.store, self.listener, self.ended, self.clients, self.serve = store, listener, ended, [], None
        self.owner_key, self.holders = bytes.fromhex(store.owner.line.split(" ")[1]), store.holders

    def serve_all(self, text):
        """Serves clients, once the store is open, which this text tells."""
        try:
            self.begin()
            print(text, flush=True)
            while self.has_gone_on():
                for client in [client for client in self.clients if client.has_line]:
                    client.answers += self.answer(client, client.line()).encode("ascii")
        finally:
            for client in self.clients:
                client.connection.close()
            self.end()

    def has_gone_on(self):
        """Waits for clients, and takes and gives what can be; False at a signal that ends this."""
        is_asked = any(client.has_line for client in self.clients)
        reads = [client for client in self.clients if not client.has_ended and not client.has_line and len(client.answers) < WAITING]
        reads += [self.ended] + [self.listener] * (len(self.clients) < CLIENTS)
        able, taking, _ = select.select(reads, [client for client in self.clients if client.answers], [], 0 if is_asked else None)
        for client in taking:
            client.write()
        for one in able:
            if one is self.listener:
                self.clients.append(Client(self.listener.accept()[0]))
            elif one is not self.ended:
                one.read()
        self.let_go([client for client in self.clients if client.has_left])
        return self.ended not in able

    def let_go(self, gone):
        for client in gone:
            client.connection.close()
            self.clients.remove(client)
        if gone and not any(client.seats for client in self.clients) and (not self.clients or self.serve and self.serve.is_half_spent):
            self.end()

    def begin(self):
        """The program, over a store whose head a run before it tested: `serve` is handed none."""
        self.store.ended(self.store.begun(self.store.last.head))
        self.store.last.mark()
        self.serve = program.Serve(self.store.path, self.store.owner.line, self.store.handle)

    def end(self):
        serve, self.serve = self.serve, None
        if serve:
            self.store.ended(serve)

    def answer(self, client, line):
        """All that a line is answered, by the program or here."""
        asked = next((found for form in (OWNER, BEGIN, TURN, COMMAND) if line is not None and (found := form.fullmatch(line))), None)
        numbers = [] if asked is None or asked.re is OWNER else [group for group in asked.groups() if group and group.isdigit()]
        if asked is None or any(int(number) > MOST for number in numbers):
            return "refused bad-line\n"
        if asked.re is OWNER:
            client.is_owner = hmac.compare_digest(bytes.fromhex(asked[1]), self.owner_key)
            return "ok\n" if client.is_owner else "refused wrong-key\n"
        if asked.re is COMMAND and not client.is_owner:
            return "refused not-owner\n"
        if asked.re is TURN and int(asked[2]) > len(client.seats):
            return "refused no-session\n"
        if self.serve is None:
            self.begin()
        return self.told(client, asked) if self.serve.has_room(line + program.MARK) else "refused no-room\n"

    def told(self, client, asked):
        """What the program answers, with the numbers that its sessions have here."""
        if asked.re is TURN:
            return self.serve.turn(f"{asked[1]} {client.seats[int(asked[2]) - 1]}")
        told = self.serve.turn(asked[0])
        if asked.re is COMMAND:
            self.store.see_that_it_has_its_name()
            self.follow(asked[0], told)
        elif begun := re.fullmatch(r"session ([0-9]+) (of [0-9]+\n)", told):
            client.seats.append(int(begun[1]))
            return f"session {len(client.seats)} {begun[2]}"
        return told

    def follow(self, line, told):
        """Keeps what a command did to the grants that are recorded."""
        for name, path in self.holders.follow(line) if told == "ok\n" else ():
            warn(f"the grant of {name} on {real_path(path)} went with it")
