"""Runs of the program under strace, each beside what is due of it."""
import contextlib
import itertools
import os
import subprocess
from collections import namedtuple

import harness
from store_limits import AHEAD
from system_trace import STRACE, Deeds, Opened

SYNCED = ("synced",)
STORE, RANDOM = "STORE", "RANDOM"  # stand for files of the run's own
ACCESS = {"make": ("O_RDWR", "O_CREAT"), "gen": ("O_RDWR", "O_CREAT"), "run": ("O_RDWR",), "serve": ("O_RDWR",), "upgrade": ("O_RDWR",)}
TO_READ = ("O_RDONLY",)
FULL, FOLDER = "/dev/full", "/"
SAYS = {"done": (0, b""), "usage": (2, b"cryptree: usage\n"), "bad script": (3, b"cryptree: bad script line %d\n"),
        "read fault": (4, b"cryptree: read fault\n"), "write fault": (5, b"cryptree: write fault\n"),
        "disk fault": (6, b"cryptree: disk fault\n"), "random fault": (7, b"cryptree: random fault\n"),
        "random short": (8, b"cryptree: random %d of %d\n"), "not a store": (9, b"cryptree: not a store\n"),
        "damaged": (10, b"cryptree: damaged at %d\n"), "wrong key": (11, b"cryptree: wrong key\n"),
        "tampered": (12, b"cryptree: tampered batch %d at %d\n"), "out of memory": (13, b"cryptree: out of memory\n"),
        "not blank": (14, b"cryptree: not blank\n"), "no holder": (15, b"cryptree: no holder, %d known\n"),
        "unseen": (16, b"cryptree: unseen\n"), "needs upgrade": (17, b"cryptree: needs upgrade\n"),
        "already new": (18, b"cryptree: already version 2\n")}

# how far the input is read: not at all; to its end; to a fault behind all of it; else the number of a line, to its end and not much further
NONE, WHOLE, FAULT = "none", "whole", "fault"

# what a run begins with: its words, what is typed, the store's bytes (None where it is missing), the random bytes or another source's path;
# what is due: how it ends, by a name of SAYS with numbers or by a status and a line, what is done in which order before that is said, how
# far the input is read (None: isn't asked); and what it runs under, a shell's words around it, other streams than files, and terminals; how
# many replies each line behind the first has, where it isn't one each
Case = namedtuple("Case", "what words typed before random ends order takes under via input output terminals each",
                  defaults=(b"", None, b"", "done", (), NONE, None, None, None, None, (), None))


class Traced:
    """A case that ran in a folder of its own."""

    def __init__(self, check, name, case):
        self.case, self.folder = case, os.path.join(check.folder, name)
        os.mkdir(self.folder)
        store, random, *rest = [*case.words, "", ""]
        self.store = self.path("store") if store == STORE else store
        self.random = case.random if isinstance(case.random, str) else self.path("random")
        words = [self.store, self.random, *rest[:-2]] if random == RANDOM else case.words
        for path, data in ((self.store, case.before), (self.path("typed"), case.typed), (self.random, case.random)):
            if isinstance(data, bytes):
                check.put(path, data)
        around = ["sh", "-c", case.via, "sh"] if case.via else []
        shown, terminal = os.openpty() if case.terminals else (None, None)
        with self.input() as source, open(case.output or self.path("printed"), "wb") as output:
            done = subprocess.run([*STRACE, self.path("log"), *around, check.program, *words], stdin=source, preexec_fn=case.under,
                                  stdout=terminal if "output" in case.terminals else output,
                                  stderr=terminal if "errors" in case.terminals else subprocess.PIPE)
        for file in filter(None, (shown, terminal)):
            os.close(file)
        self.ended, self.deeds = (done.returncode, done.stderr), Deeds(self.path("log"), self.store, self.random)
        self.left = harness.read(self.store) if store == STORE and os.path.exists(self.store) else None
        self.beside = set(os.listdir(self.folder)) - {"store", "random", "typed", "printed", "log"}

    def path(self, name):
        return os.path.join(self.folder, name)

    @contextlib.contextmanager
    def input(self):
        """What is typed, as a file, or in a pipe that is read without waiting; or another file."""
        if self.case.input == "pipe":
            files = os.pipe()
            os.set_blocking(files[0], False)
            os.write(files[1], self.case.typed)
        else:
            files = [os.open(self.case.input or self.path("typed"), os.O_RDONLY)]
        yield files[0]
        for file in files:
            os.close(file)

    def access(self):
        """How the store's file is due to be opened, and none where the words name none."""
        case = self.case
        return ACCESS.get(case.words[2], TO_READ) if len(case.words) > 2 and case.ends != "usage" else ()

    def due_opened(self):
        flags, rows = self.access(), []
        if flags:
            mode = "0666" if "O_CREAT" in flags else ""
            rows.append(Opened(self.store.encode(), frozenset(flags), mode, self.fault_of_store(flags)))
        if flags and self.random != "-":
            rows.append(Opened(self.random.encode(), frozenset(TO_READ), "", "" if os.path.exists(self.random) else "ENOENT"))
        return rows

    def fault_of_store(self, flags):
        if self.store == self.path("store"):
            return "ENOENT" if self.case.before is None and "O_CREAT" not in flags else ""
        return {FULL: "", FOLDER: "" if flags == TO_READ else "EISDIR"}.get(self.store, "ENOENT")

    def due_order(self):
        order, said = [], said_at(self.case.ends)[1]
        for deed in self.case.order:
            if order and deed[0] == order[-1][0] == "printed":
                deed = "printed", order.pop()[1] + deed[1]
            order.append(deed)
        return [*order, ("said", said)] if said else order

    def due_left(self):
        makes = "O_CREAT" in self.access() and self.store == self.path("store")
        return left_by(b"" if makes and self.case.before is None else self.case.before, self.case.order)

    def is_taken_as_due(self):
        """Whether the input was read as far as is due, and of `run` and `serve` no line before the last one was replied to."""
        due, takes, typed = self.case.takes, self.deeds.takes, self.case.typed
        taken, faults = sum(take.count for take in takes), [take.fault for take in takes if take.fault]
        if due == NONE or not takes:
            return not takes and due == NONE
        if due == WHOLE:
            as_far = taken == len(typed) and takes[-1].count == 0 and not faults
        elif due == FAULT:
            as_far = taken == len(typed) and takes[-1].fault and len(faults) == 1
        else:
            line = sum(map(len, typed.splitlines(True)[:due]))
            as_far = due is None or line <= taken <= line + AHEAD and not faults
        return as_far and all(take.printed == self.printed_before(typed[:take.before].count(b"\n")) for take in takes)

    def printed_before(self, lines):
        """How many bytes are due to be printed before more is read than so many whole lines: the replies to each but the first."""
        replies = [deed[1] for deed in self.case.order if deed[0] == "printed"] if self.case.words[2] in ("run", "serve") else []
        behind = max(0, lines - 1)
        return sum(map(len, replies[:behind if self.case.each is None else sum(self.case.each[:behind])]))

    def differences(self):
        """What came otherwise than it was due, in a few words."""
        case, deeds = self.case, self.deeds
        status, said = said_at(case.ends)
        pairs = [("odd", deeds.odd[:3], []), ("looks at the time", deeds.looks_at_time, False),
                 ("ended", (*self.ended, deeds.status), (status, said, status)), ("opened", deeds.opened, self.due_opened()),
                 ("beside the store", self.beside, set()),
                 ("taken", self.is_taken_as_due() or deeds.takes[-3:], True), ("left as due", self.left == self.due_left(), True)]
        rows = itertools.zip_longest(deeds.order, self.due_order())
        pairs += [(f"deed {n}", *row) for n, row in enumerate(rows) if row[0] != row[1]][:1]
        return [f"{what}: {str(came)[:200]}, due {str(due)[:200]}" for what, came, due in pairs if came != due]


def said_at(ends):
    """The status and the line of an end: its name, its name with numbers, or themselves."""
    if not isinstance(ends, str) and isinstance(ends[0], int):
        return ends
    name, *numbers = [ends] if isinstance(ends, str) else ends
    return SAYS[name][0], SAYS[name][1] % tuple(numbers) if numbers else SAYS[name][1]


def left_by(image, order):
    """The bytes of a file in which all of this was written."""
    for deed in order:
        if deed[0] == "wrote":
            image = image[:deed[1]] + deed[2] + image[deed[1] + len(deed[2]):]
    return image
