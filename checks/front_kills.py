"""put, get and renew of some dozens of files, large ones in parts among them, killed (KILL) at each write of the program, and at moments
spread over all that they take: the front end, the program, or both at once. What stands then is whole, and the same words again finish it.

    checks/front_kills.py PROGRAM

That stops them at each write and at MOMENTS moments; checks/front_end does as many of them, spread over all, as go into SECONDS.
"""
import itertools
import json
import os
import random
import shutil
import signal
import sys
import time

import harness
import store_reader
from front_calls import front, keys_of, started
from front_folders import bytes_of, make, state
from store_limits import FILE_LIMIT

MOMENTS, SECONDS = 100, {"put at writes": 35, "put at moments": 35, "get": 15, "renew at writes": 15, "renew at moments": 20}
LEAST = 4       # stops of each kind, however long they take
TARGETS = ("front end", "program", "both")
RANDOM = random.Random("front kills")
FILES = {f"d{number % 3}/f{number:02}": RANDOM.randbytes(RANDOM.randrange(9000)) for number in range(30)}
LARGE = RANDOM.randbytes(2 * FILE_LIMIT + 5000)
OLD = FILES | {"large": LARGE, "shrinks": LARGE[:FILE_LIMIT + 1], "old/one": b"1", "empty": None}
NEW = dict(list(FILES.items())[6:]) | {f"new d/{name.replace('/', ' ')}": data + b"new" for name, data in list(FILES.items())[3:9]} | {
    "d0/f06": b"changed", "d1/f07": b"", "large": LARGE[:FILE_LIMIT] + b"x" + LARGE[FILE_LIMIT + 1:] + b"and more", "shrinks": b"small",
    "new d/large": LARGE[1:FILE_LIMIT + 5], "old": b"a file now", "empty": None, "d0/renamed": FILES["d0/f00"]}
CHECKS = os.path.dirname(os.path.abspath(__file__))
STOPPING = """#!{python}
import os, sys
sys.path.insert(0, {checks!r})
import faults
faults.killed_at({place})()
os.execv({program!r}, [{program!r}, *sys.argv[1:]])
"""
ACCEPTED = b"was killed, and nothing of it is here"


def spread(items):
    """All of them, in an order of which each beginning is spread over all."""
    items = list(items)
    bits = len(items).bit_length()
    return [items[place] for place in sorted(range(len(items)), key=lambda place: int(f"{place:0{bits}b}"[::-1], 2))]


class Kills:
    """A store of OLD with a holder, put back before each stop, and the words that are stopped."""

    def __init__(self, check, is_whole):
        self.check, self.is_whole = check, is_whole
        self.store, self.new, self.out, self.old_folder, self.folder, self.kept = (
            os.path.join(check.folder, "kills." + name) for name in ("store", "new", "out", "old", "in", "kept"))
        make(self.old_folder, OLD, {"link": "large"})
        make(self.folder, NEW, {"other link": "large"})
        for words in (["init"], ["put", self.old_folder, "/t"], ["holder", "add", "ann"], ["grant", "ann", "/t"]):
            self.ends(words[0], *words)
        self.image = harness.read(self.store)
        shutil.copytree(keys_of(check), self.kept)
        self.due, self.old, self.new_bytes = state(self.folder), bytes_of(self.old_folder), bytes_of(self.folder)

    def ends(self, what, *words, store=None):
        """That these words end with 0, also where they ask for --accept since a writing was killed that wrote nothing; what is printed."""
        came = front(self.check, store or self.store, *words)
        if came[0] and ACCEPTED in came[2]:
            came = front(self.check, store or self.store, *words, "--accept")
        self.check.expect(f"kills: {what}", (came[0], came[2] if came[0] else b""), (0, b""))
        return came[1]

    def back(self):
        """All as it was before."""
        for place in (self.out, keys_of(self.check)):
            shutil.rmtree(place, ignore_errors=True)
        shutil.copytree(self.kept, keys_of(self.check))
        for place in (self.new, self.new + ".half"):
            if os.path.exists(place):
                os.remove(place)
        self.check.put(os.path.basename(self.store), self.image)

    def stops(self, kind, stops):
        """Each of these stops, or as many as there is time for."""
        until = time.monotonic() + SECONDS[kind]
        for done, stop in enumerate(spread(stops)):
            if not self.is_whole and done >= LEAST and time.monotonic() > until:
                break
            yield stop

    def stopped_at_write(self, place, *words):
        """How these words end where the program is stopped before its first write to this place."""
        program = self.check.put("kills.program", STOPPING.format(python=sys.executable, checks=CHECKS, place=place,
                                                                  program=self.check.program).encode())
        os.chmod(program, 0o700)
        status, _, said = front(self.check, self.store, *words, program=program)
        self.check.expect(f"kills: {words[0]} that is stopped at {place}", (status, b"was ended by signal" in said), (1, True))

    def stopped_after(self, seconds, target, *words):
        """Kills these words after so many seconds."""
        process = started(self.check, self.store, *words)
        time.sleep(seconds)
        with open(f"/proc/{process.pid}/task/{process.pid}/children", encoding="ascii") as file:
            inside = [int(number) for number in file.read().split()]
        for number in [process.pid] * (target != "program") + inside * (target != "front end"):
            try:
                os.kill(number, signal.SIGKILL)
            except ProcessLookupError:
                pass
        process.communicate()

    def moments(self, *words):
        """Moments over all that these words take, with what is killed."""
        self.back()
        began = time.monotonic()
        self.ends("not stopped", *words)
        whole = time.monotonic() - began
        return [(whole * number / MOMENTS, TARGETS[number % 3]) for number in range(MOMENTS)]


def writes_of(image, after):
    """The places that the program writes to for what an image has behind this place: each batch, the gate before it, and its slot."""
    return sorted(place for batch, _ in store_reader.log(image, None) if batch.at >= after
                  for place in (batch.at, batch.at - 1, batch.at + 13))


def finished_put(at, what):
    """What a stopped put left is old or new, file by file, or is told as half; the next one finishes it, and one more has nothing to do."""
    status, _, said = front(at.check, at.store, "get", "/t", at.out, "--accept")
    come = bytes_of(at.out) if status == 0 else {}
    others = [path for path, data in come.items() if data not in (at.old.get(path, 0), at.new_bytes.get(path, 0))]
    at.check.expect(f"{what}: what stands", (status, b"half written" in said, others), (1, True, []) if status else (0, False, []))
    at.ends(f"{what}: put again", "put", at.folder, "/t")
    at.ends(f"{what}: get", "get", "/t", at.out, "--replace")
    at.check.expect(f"{what}: the folder comes back", state(at.out) == at.due, True)
    at.check.expect(f"{what}: nothing is left", b"nothing to do" in at.ends(what, "put", at.folder, "/t"), True)


def puts(at):
    words = ["put", at.folder, "/t"]
    moments = at.moments(*words)
    places = writes_of(harness.read(at.store), len(at.image))
    # At the last one, a slot, a removal stands that no reading shows yet.
    for place in itertools.chain(places[-1:], at.stops("put at writes", places[:-1])):
        at.back()
        at.stopped_at_write(place, *words)
        finished_put(at, f"put stopped at {place}")
    for moment, target in at.stops("put at moments", moments):
        at.back()
        at.stopped_after(moment, target, *words)
        finished_put(at, f"put whose {target} is killed after {moment:.3f} s")


def gets(at):
    """The folder is as it was, or the new one, and the next get makes the new one."""
    words, due = ["get", "/t", at.out, "--replace"], state(at.old_folder)
    for moment, target in at.stops("get", at.moments(*words)):
        at.back()
        make(at.out, {"mine": b"old"})
        before, what = state(at.out), f"get whose {target} is killed after {moment:.3f} s"
        at.stopped_after(moment, target, *words)
        at.check.expect(f"{what}: old or new", state(at.out) in (before, due), True)
        at.ends(f"{what}: again", *words)
        at.check.expect(f"{what}: new", state(at.out) == due, True)
        for left in os.listdir(at.check.folder):
            if left.startswith(".kills.out.cryptree-"):
                shutil.rmtree(os.path.join(at.check.folder, left))


def finished_renew(at, what):
    """The old store is as it was; the new one isn't there, or it's whole; what is half is taken away, and the next renew finishes it."""
    at.check.expect(f"{what}: the old store", harness.read(at.store) == at.image, True)
    if not os.path.exists(at.new):
        if os.path.exists(at.new + ".half"):
            os.remove(at.new + ".half")
        at.ends(f"{what}: again", "renew", at.new)
    at.ends(f"{what}: get", "get", "/t", at.out, "--as", "ann", store=at.new)
    at.check.expect(f"{what}: all of it", state(at.out) == state(at.old_folder), True)
    told = json.loads(at.ends(f"{what}: who", "who", "--json", store=at.new))
    at.check.expect(f"{what}: who reads it", [(entry["name"], entry["granted"]) for entry in told], [("ann", ["/t"])])


def renews(at):
    words = ["renew", at.new]
    moments = at.moments(*words)
    for place in at.stops("renew at writes", writes_of(harness.read(at.new), 0)[6:]):     # behind what `make` writes
        at.back()
        at.stopped_at_write(place, *words)
        finished_renew(at, f"renew stopped at {place}")
    for moment, target in at.stops("renew at moments", moments):
        at.back()
        at.stopped_after(moment, target, *words)
        finished_renew(at, f"renew whose {target} is killed after {moment:.3f} s")


def all_kills(check, is_whole=False):
    at = Kills(check, is_whole)
    puts(at)
    gets(at)
    renews(at)


if __name__ == "__main__":
    harness.main(__doc__, lambda check: all_kills(check, True))
