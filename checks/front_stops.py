"""The front end killed at each of its steps, in init, holder add and replace, put, get, upgrade, renew and restore: what stands then, and what doing it
again comes to.

A step is what changes a file, a folder or a lock, begins a program, or sends it a line. The front end runs in a process that is forked
from this one, and is killed just before its step of a number, until there is none of it.

    checks/front_stops.py PROGRAM

That kills it at each step, which takes a quarter of an hour; checks/front_end asks for every STRIDE-th.
"""
import contextlib
import glob
import io
import json
import os
import signal
import sys

import front_folders
import harness
from front_calls import FRONT, keys_of
from front_keys import key_file, modes

sys.path.insert(0, os.path.dirname(FRONT))

from folder_store import entry, program, units     # noqa: E402 (the package stands beside the front end)

STEPS = {"os.rename", "os.link", "os.remove", "os.mkdir", "os.rmdir", "os.chmod", "os.utime", "os.symlink", "tempfile.mkstemp",
         "tempfile.mkdtemp", "subprocess.Popen", "fcntl.flock", "ctypes.dlsym"}
KILLED = -signal.SIGKILL
STRIDE = 9
TREE = {"in/x": b"1", "y": b"a file in parts", "z": b""}


def called(check, words, stop=None):
    """How the front end ends with these words, killed before a step of this number: its status, what it printed and said."""
    out, into = os.pipe()
    child = os.fork()
    if not child:
        os.close(out)
        os._exit(in_child(check, words, stop, into))
    os.close(into)
    with open(out, "rb") as file:
        told = file.read().decode()
    return os.waitstatus_to_exitcode(os.waitpid(child, 0)[1]), told


def in_child(check, words, stop, into):
    steps, printed = [0], io.TextIOWrapper(io.BytesIO(), write_through=True)

    def step():
        steps[0] += 1
        if steps[0] == stop:
            os.kill(os.getpid(), signal.SIGKILL)

    def hook(event, words):
        writes = event == "open" and isinstance(words[2], int) and words[2] & (os.O_WRONLY | os.O_RDWR)
        if event in STEPS or writes:
            step()

    say = program.Session.say
    program.Session.say = lambda session, line: step() or say(session, line)
    os.environ["CRYPTREE"] = check.program
    sys.argv = ["cryptree-folder", *words, "--keys", keys_of(check)]
    with contextlib.redirect_stdout(printed), contextlib.redirect_stderr(printed):
        if stop:
            sys.addaudithook(hook)
        status = entry.main()
    os.write(into, printed.buffer.getvalue()[-60_000:])
    return status


def stops(check, what, words, stands, again):
    """Kills the front end at every STRIDE-th step of these words. `stands` gives what is wrong then, and `again` puts all back to before."""
    number = 1 - STRIDE
    while True:
        number += STRIDE
        status, told = called(check, words(number), number)
        wrong = stands(number, status)
        check.expect(f"{what} that is killed at step {number}", (status in (0, KILLED), wrong, told if status else ""), (True, [], ""))
        if status != KILLED or number > 300:
            break
        again(number)
    check.expect(f"{what} has steps, and ends", (number > 5, status), (True, 0))


def ends(check, *words):
    """Nothing where it ends with 0, also when it asks for --accept since a writing was killed that wrote nothing; else what it told."""
    status, told = called(check, words)
    if status and "was killed, and nothing of it is here" in told:
        status, told = called(check, [*words, "--accept"])
    return [] if status == 0 else [(words[1], status, told[:300])]


def all_stops(check):
    units.PART_SIZE, size = 4, units.PART_SIZE
    inits(check)
    store = os.path.join(check.folder, "stops.store")
    called(check, [store, "init"])
    holders(check, store)
    puts(check, store)
    gets(check, store)
    replacements(check, store)
    upgrades(check)
    copies(check, small(check))
    units.PART_SIZE = size
    check.expect("modes of keys after all stops", modes(keys_of(check)), {0o700, 0o600})


def upgrades(check):
    """A store of version 1 is upgraded by the next one, and written then."""
    store, line = check.make("stops.old", os.urandom(192), 1)
    key, last = check.put("stops.key", line), os.path.join(keys_of(check), harness.read(store)[9:41].hex(), "last")
    os.chmod(key, 0o600)
    check.expect("adopt", called(check, [store, "adopt", "--key", key])[0], 0)
    before = {path: harness.read(path) for path in (store, last)}

    def stands(_, __):
        return ends(check, store, "upgrade") + ends(check, store, "holder", "add", "ann")

    def again(_):
        for path, data in before.items():
            check.put(path, data)
        for name in ("ann.key", "holders.json"):
            os.remove(os.path.join(os.path.dirname(last), name))

    stops(check, "upgrade", lambda number: [store, "upgrade"], stands, again)


def small(check):
    """A store with a holder and a folder alone, since a renewal takes steps for each."""
    store = os.path.join(check.folder, "small.store")
    for words in (["init"], ["holder", "add", "h1"], ["put", os.path.join(check.folder, "stops.put"), "/t"]):
        called(check, [store, *words])
    return store


def inits(check):
    def path(number):
        return os.path.join(check.folder, f"init{number}.store")

    def stands(number, _):
        store = path(number)
        return ends(check, store, "who") if os.path.exists(store) else ends(check, store, "init")

    stops(check, "init", lambda number: [path(number), "init"], stands, lambda number: None)


def holders(check, store):
    """A holder that was made is there with their key, or is made anew."""
    def stands(number, _):
        name = f"h{number}"
        known = json.loads(called(check, [store, "who", "--json"])[1])
        wrong = [] if name in [entry["name"] for entry in known] else ends(check, store, "holder", "add", name)
        shown = check.call([store, "-", "list"], harness.read(key_file(check, store, name + ".key")))
        return wrong + ([] if shown == (0, b"", b"") else [shown])

    stops(check, "holder add", lambda number: [store, "holder", "add", f"h{number}"], stands, lambda number: None)


def replacements(check, store):
    """No key that was replaced shows anything, and the new one shows what the first did, once it's done again."""
    for words in (["holder", "add", "team"], ["grant", "team", "/c/new"], ["grant", "team", "/t"]):
        check.expect(f"{words} before stops", called(check, [store, *words])[0], 0)
    own = key_file(check, store, "team.key")
    due = check.call([store, "-", "list"], harness.read(own))

    def stands(_, __):
        wrong = ends(check, store, "holder", "replace", "team")
        old = [name for name in glob.glob(own + ".*") if check.call([store, "-", "list"], harness.read(name)) != (0, b"", b"")]
        who, told = called(check, [store, "who"])
        is_shown = check.call([store, "-", "list"], harness.read(own)) == due
        return wrong + old + ([] if is_shown and who == 0 else [("another listing", told)])

    stops(check, "holder replace", lambda number: [store, "holder", "replace", "team"], stands, lambda number: None)


def puts(check, store):
    """What a put left is finished by the next."""
    folder, other = os.path.join(check.folder, "stops.put"), os.path.join(check.folder, "stops.other")
    front_folders.make(folder, TREE, {"l": "z"})
    front_folders.make(other, {"in": b"now a file", "y": b"other parts", "new/x": b"2"})

    def stands(number, _):
        wrong = ends(check, store, "put", folder, f"/t{number}")
        status, told = called(check, [store, "put", folder, f"/t{number}"])
        return wrong + ([] if "nothing to do" in told else [told])

    stops(check, "put", lambda number: [store, "put", folder, f"/t{number}"], stands, lambda number: None)
    stops(check, "put of changes", lambda number: [store, "put", other, "/c"], lambda number, _: ends(check, store, "put", other, "/c"),
          lambda number: ends(check, store, "put", folder, "/c"))
    called(check, [store, "put", folder, "/t"])


def gets(check, store):
    """The folder is the old one or the new one, and a get that isn't stopped makes the new one."""
    out, due = os.path.join(check.folder, "stops.out"), front_folders.state(os.path.join(check.folder, "stops.put"))

    def old():
        if os.path.exists(out):
            os.remove(os.path.join(out, "y"))
        front_folders.make(out, {"mine": b"old"})
        return front_folders.state(out)

    before = [old()]

    def stands(_, status):
        found = front_folders.state(out)
        return [] if found == due or (found == before[0] and status) else [sorted(found)]

    def again(_):
        wrong = ends(check, store, "get", "/t", out, "--replace")
        check.expect("get after a stop", (wrong, front_folders.state(out) == due), ([], True))
        before[0] = old()

    stops(check, "get", lambda number: [store, "get", "/t", out, "--replace"], stands, again)


def copies(check, store):
    """A renewed store has its name when all of it stands, and a restored one is never written."""
    called(check, [store, "grant", "h1", "/t"])
    before, backup = harness.read(store), os.path.join(check.folder, "stops.backup")
    called(check, [store, "backup", backup])

    def new(number, kind):
        return os.path.join(check.folder, f"{kind}{number}.store")

    def renewed(number, _):
        path = new(number, "renew")
        wrong = [] if harness.read(store) == before else ["the old store was changed"]
        if not os.path.exists(path):
            return wrong
        found = [called(check, [place, "ls", "-R", "--json"])[1] for place in (store, path)]
        return wrong + ([] if found[0] == found[1] else ["another listing"])

    def once_more(number):
        path = new(number, "renew")
        if os.path.exists(path + ".half") and not os.path.exists(path):
            told = called(check, [store, "renew", path])[1]
            check.expect("what is half is told", "a renew that was stopped left it" in told, True)
            os.remove(path + ".half")
        check.expect("renew after a stop", [] if os.path.exists(path) else ends(check, store, "renew", path), [])

    stops(check, "renew", lambda number: [store, "renew", new(number, "renew")], renewed, once_more)

    def restored(number, _):
        path = new(number, "restore")
        wrong = [] if os.path.exists(path) else ends(check, path, "restore", backup)
        status, told = called(check, [path, "holder", "add", "no"])
        return wrong + ([] if status == 1 and "is a restored copy" in told else [told])

    stops(check, "restore", lambda number: [new(number, "restore"), "restore", backup], restored, lambda number: None)


if __name__ == "__main__":
    STRIDE = 1
    harness.main(__doc__, all_stops)
