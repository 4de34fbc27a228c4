"""Backups that are restored, stores that are taken in, renewed ones, and how full a store may become, asked of the front end."""
import contextlib
import glob
import io
import json
import os
import shutil
import stat
import sys
import time

import harness
import store_reader
from front_calls import FRONT, expect_told, front, keys_of, shell
from front_keys import done, fresh, key_file, modes
from harness import read

sys.path.insert(0, os.path.dirname(FRONT))

from folder_store import progress     # noqa: E402 (the package stands beside the front end)


def all_copies(check):
    restored(check)
    lost_keys(check)
    for version in check.each_version():
        taken_in(check, version)
    holders_taken_in(check)
    followed_grants(check)
    full(check)
    full_of_what_stands(check)
    json_of_each(check)
    progress_line(check)


def shared_store(check, name):
    """A store with a folder, a file, and ann, who may read the folder."""
    store = fresh(check, name)
    done(check, "holder add", front(check, store, "holder", "add", "ann"))
    owner = read(key_file(check, store, "owner.key"))
    check.call([store, "/dev/urandom", "run"], owner + b"mkdir /a\nwrite /a/b 6869\n")
    done(check, "grant", front(check, store, "grant", "ann", "/a"))
    return store


def restored(check):
    """A restored backup is read and never written, by whatever options, until it's renewed."""
    store = shared_store(check, "backed.store")
    copy, back, new = (os.path.join(check.folder, f"backed.{part}") for part in ("copy", "back", "new"))
    done(check, "backup", front(check, store, "backup", copy))
    expect_told(check, "restore over a store", front(check, store, "restore", copy), 1, "stands there already")
    expect_told(check, "restore of nothing", front(check, back, "restore", copy + ".no"), 1, "there is no store")
    expect_told(check, "restore of another file", front(check, back, "restore", FRONT), 1, "is not a store")
    check.expect("these make nothing", os.path.exists(back), False)
    done(check, "restore", front(check, back, "restore", copy))
    check.expect("the restored store", (read(back) == read(copy), stat.S_IMODE(os.stat(back).st_mode)), (True, 0o600))
    for words in (("holder", "add", "ben"), ("grant", "ann", "/"), ("revoke", "ann", "/a"), ("holder", "add", "ben", "--accept"),
                  ("put", os.path.dirname(FRONT), "/x")):
        expect_told(check, f"{words[0]} on a restored store", front(check, back, *words), 1, "is a restored copy", "renew")
    check.expect("it isn't written", read(back) == read(copy), True)
    check.expect("it's read", done(check, "cat", front(check, back, "cat", "/a/b", "--as", "ann")), b"hi")
    done(check, "the store itself goes on", front(check, store, "holder", "add", "ben"))
    done(check, "renew", front(check, back, "renew", new))
    check.expect("the new one is read", done(check, "cat", front(check, new, "cat", "/a/b", "--as", "ann")), b"hi")
    done(check, "and written", front(check, new, "holder", "add", "cy"))
    changed = bytearray(read(copy))
    changed[-40] ^= 1
    hurt = check.put("backed.hurt", bytes(changed))
    came = front(check, back + "2", "restore", hurt)
    check.expect("a hurt backup isn't restored", (came[0], os.path.exists(back + "2")), (1, False))


def lost_keys(check):
    """A backup and the owner's key are all that is left: they are enough to go on with a new store."""
    store = shared_store(check, "lost.store")
    copy, back, new, kept = (os.path.join(check.folder, f"lost.{part}") for part in ("copy", "back", "new", "owner"))
    done(check, "backup", front(check, store, "backup", copy))
    shutil.copy(key_file(check, store, "owner.key"), kept)
    elsewhere = os.path.join(check.folder, "lost_keys")
    expect_told(check, "restore without a key", front(check, back, "restore", copy, keys=elsewhere), 1, "no owner's key")
    ann = key_file(check, store, "ann.key")
    expect_told(check, "restore with a holder's", front(check, back, "restore", copy, "--key", ann, keys=elsewhere), 1, "a holder's key")
    done(check, "restore with the key", front(check, back, "restore", copy, "--key", kept, keys=elsewhere))
    check.expect("modes of what was taken in", modes(elsewhere), {0o700, 0o600})
    expect_told(check, "it isn't written", front(check, back, "holder", "add", "di", keys=elsewhere), 1, "is a restored copy")
    os.rename(back, back + ".moved")
    expect_told(check, "nor where it was moved to", front(check, back + ".moved", "holder", "add", "di", keys=elsewhere), 1, "older copy")
    done(check, "renew", front(check, back + ".moved", "renew", new, keys=elsewhere))
    check.expect("all stands", done(check, "cat", front(check, new, "cat", "/a/b", keys=elsewhere)), b"hi")
    done(check, "a holder of the new one", front(check, new, "holder", "add", "ann", keys=elsewhere))


def taken_in(check, version):
    """A store of this version that was made without the front end, taken in by its owner's key, and upgraded where it has to be."""
    store, line = check.make(f"version{version}.store", os.urandom(192), version)
    (_, printed, _), image = check.write(read(store), store_reader.read_bundle(line).key, b"holder\n", os.urandom(32))
    store = check.put(f"version{version}.store", image)
    os.chmod(store, 0o600)
    key, holder = check.put("core.owner", line), check.put("core.holder", printed)
    keys = os.path.join(check.folder, f"keys_of_version{version}")
    expect_told(check, "adopt without a key", front(check, store, "adopt", keys=keys), 2, "--key FILE")
    os.chmod(key, 0o644)
    expect_told(check, "a key that others read", front(check, store, "adopt", "--key", key, keys=keys), 1, "chmod 600")
    os.chmod(key, 0o600)
    os.chmod(holder, 0o600)
    expect_told(check, "a holder's key", front(check, store, "adopt", "--key", holder, keys=keys), 1, "a holder's key")
    other = fresh(check, f"version{version}.other")
    expect_told(check, "another's key", front(check, other, "adopt", "--key", key, keys=keys), 1, "not one of")
    expect_told(check, "not taken in yet", front(check, store, "who", keys=keys), 1, "no owner's key")
    check.expect("nothing was made", glob.glob(keys + "/*"), [])
    done(check, "adopt", front(check, store, "adopt", "--key", key, keys=keys))
    check.expect("the key that was taken in", (read(key_file_in(keys, store)), modes(keys)), (line, {0o700, 0o600}))
    expect_told(check, "adopt twice", front(check, store, "adopt", "--key", key, keys=keys), 1, "in the key folder already")
    if version != harness.MADE_VERSION:
        upgraded(check, store, keys)
    check.expect("upgrade of version 2", done(check, "upgrade", front(check, store, "upgrade", keys=keys)).endswith(b"already\n"), True)
    done(check, "it's written", front(check, store, "holder", "add", "ann", keys=keys))
    of_any_version(check, store, keys)


def upgraded(check, store, keys):
    """A store of version 1 is read, copied and made anew; what would write it tells what to do, and leaves it and the key folder."""
    folder, before = os.path.join(check.folder, "old.in"), read(store)
    os.mkdir(folder)
    for words in (("holder", "add", "ann"), ("put", folder, "/new"), ("grant", "ann", "/")):
        came = front(check, store, *words, keys=keys)
        expect_told(check, f"{words[0]} over version 1", came, 1, "no holder is called" if words[0] == "grant" else "with upgrade")
    left = sorted(os.listdir(os.path.dirname(key_file_in(keys, store))))
    check.expect("what these leave", (read(store) == before, left), (True, ["holders.json", "last", "owner.key"]))
    check.expect("ls over version 1", done(check, "ls", front(check, store, "ls", keys=keys)), b"")
    done(check, "renew of version 1", front(check, store, "renew", store + ".new", keys=keys))
    done(check, "written anew", front(check, store + ".new", "put", folder, "/new", keys=keys))
    last = os.path.relpath(os.path.join(os.path.dirname(key_file_in(keys, store)), "last"), check.folder)
    kept = read(os.path.join(check.folder, last))
    hides = f'"{check.program}" "$@"; [ "$3" != upgrade ] && [ "$3" != head ] || exit 12'
    came = front(check, store, "upgrade", keys=keys, program=shell(check, "hides", hides))
    check.expect("an upgrade whose log is changed behind its answer", (came[0], len(read(store)) > len(before)), (1, True))
    check.put(os.path.basename(store), before)
    expect_told(check, "put back behind it", front(check, store, "upgrade", keys=keys), 1, "was killed", "--accept")
    check.put(last, kept)
    end, small = len(before) - 1, small_front(check, len(before))
    status, printed, said = front(check, store, "upgrade", keys=keys, with_front=small)
    check.expect("upgrade", (status, b"version 2" in printed, read(store)[:end] == before[:end], len(read(store)) > len(before)),
                 (0, True, True, True))
    check.expect("what it's told of the room", (b"in 100 full" in said, b"a revocation of every grant takes" in said), (True, True))


def of_any_version(check, store, keys):
    """A folder put into a store, a file of it taken away, and the rest got back."""
    there, back = (os.path.join(check.folder, os.path.basename(store) + name) for name in (".in", ".out"))
    os.makedirs(os.path.join(there, "b"))
    for name in ("x", "b/y"):
        with open(os.path.join(there, name), "wb") as file:
            file.write(name.encode())
    check.expect("a folder", front(check, store, "put", there, "/a", keys=keys)[0], 0)
    os.remove(os.path.join(there, "x"))
    check.expect("a file that left it", front(check, store, "put", there, "/a", keys=keys)[0], 0)
    check.expect("the rest", front(check, store, "get", "/a", back, keys=keys)[0], 0)
    check.expect("what is left of it", (os.listdir(back), read(os.path.join(back, "b", "y"))), (["b"], b"b/y"))


def key_file_in(keys, store):
    return os.path.join(keys, read(store)[9:41].hex(), "owner.key")


def holders_taken_in(check):
    """Holders that the program made get names, and the grants that they have are known then."""
    store = fresh(check, "core2.store")
    owner = read(key_file(check, store, "owner.key"))
    said = check.call([store, "/dev/urandom", "run"], owner + b"mkdir /a\nmkdir /a/b\nholder\ngrant 1 /a\nholder\n")[1].splitlines(True)
    keys = [check.put(f"core2.{number}", said[place]) for number, place in ((1, 2), (2, 4))]
    for key in keys:
        os.chmod(key, 0o600)
    expect_told(check, "holder adopt without a key", front(check, store, "holder", "adopt", "ann"), 2, "--key FILE")
    done(check, "holder adopt", front(check, store, "holder", "adopt", "ann", "--key", keys[0]))
    expect_told(check, "the same again", front(check, store, "holder", "adopt", "cy", "--key", keys[0]), 1, "the key of ann")
    expect_told(check, "a name again", front(check, store, "holder", "adopt", "ann", "--key", keys[1]), 1, "is a holder already")
    owners = key_file(check, store, "owner.key")
    expect_told(check, "the owner's key", front(check, store, "holder", "adopt", "cy", "--key", owners), 1, "an owner's key")
    elsewhere = fresh(check, "core3.store")
    expect_told(check, "another store's", front(check, elsewhere, "holder", "adopt", "cy", "--key", keys[0]), 1, "no such holder")
    done(check, "holder adopt", front(check, store, "holder", "adopt", "ben", "--key", keys[1]))
    due = [{"name": "ann", "number": 1, "granted": ["/a"], "from": "store"}, {"name": "ben", "number": 2, "granted": [], "from": "store"}]
    check.expect("who", json.loads(done(check, "who", front(check, store, "who", "--json"))), due)
    check.expect("modes", modes(keys_of(check)), {0o700, 0o600})
    done(check, "revoke", front(check, store, "revoke", "ann", "/a"))


def followed_grants(check):
    """Who and grants tell the names of what stands now, where a folder was renamed since it was granted."""
    store, folder = fresh(check, "named.store"), os.path.join(check.folder, "named")
    os.makedirs(os.path.join(folder, "old plans", "in"))
    with open(os.path.join(folder, "old plans", "in", "x"), "w") as file:
        file.write("x")
    done(check, "put", front(check, store, "put", folder, "/t"))
    for name, path in (("ann", "/t/old plans"), ("ben", "/t/old plans/in"), ("cy", "/")):
        done(check, "holder add", front(check, store, "holder", "add", name))
        done(check, "grant", front(check, store, "grant", name, path))
    os.rename(os.path.join(folder, "old plans"), os.path.join(folder, "new plans"))
    printed = done(check, "put renamed", front(check, store, "put", folder, "/t"))
    check.expect("a folder that was renamed", b"0 new, 0 changed, 1 renamed, 0 gone" in printed, True)
    due = [{"path": "/", "names": ["cy"], "recorded": []}, {"path": "/t/new plans", "names": ["ann"], "recorded": []},
           {"path": "/t/new plans/in", "names": ["ben"], "recorded": []}]
    for path, those in ((None, due), ("/t/new plans/in", due), ("/t/new plans", due), ("/other", due[:1])):
        words = ["grants", "--json"] + [path] * bool(path)
        check.expect(f"grants of {path}", json.loads(done(check, "grants", front(check, store, *words))), those)
    check.expect("who", b"ben  /t/new plans/in\n" in done(check, "who", front(check, store, "who")), True)
    os.remove(key_file(check, store, "ben.key"))
    printed = done(check, "grants", front(check, store, "grants"))
    check.expect("one whose key was handed over", b"/t/new plans/in  ben*\n*  as recorded" in printed, True)


def small_front(check, limit):
    """A front end for which a store takes so many bytes."""
    small = check.put("small", f"""#!{sys.executable}
import sys
sys.path.insert(0, {os.path.dirname(FRONT)!r})
from folder_store import room
from folder_store.entry import main
room.LIMIT, room.BESIDE = {limit}, 3000
sys.exit(main())
""".encode())
    os.chmod(small, 0o700)
    return small


def full(check):
    """A store that is nearly full, over a front end for which it's small: what is warned, refused, and still revoked."""
    store, folder = shared_store(check, "full.store"), os.path.join(check.folder, "full")
    os.mkdir(folder)
    small = small_front(check, os.stat(store).st_size + 60_000)

    def calls(*words):
        return front(check, store, *words, with_front=small)

    with open(os.path.join(folder, "x"), "wb") as file:
        file.write(bytes(59_000))
    expect_told(check, "put of too much", calls("put", folder, "/x"), 1, "beside what revocations need", "nothing was done")
    os.truncate(os.path.join(folder, "x"), 50_000)
    done_with = calls("put", folder, "/x")
    check.expect("a put that fits", done_with[0], 0)
    before = read(store)
    while (came := calls("holder", "add", f"h{len(read(store))}"))[0] == 0:
        before = read(store)
    check.expect("holders until it's full", (b"beside what revocations need" in came[2], read(store) == before), (True, True))
    expect_told(check, "a grant", calls("grant", "ann", "/"), 1, "nothing was done", "renew")
    came = calls("revoke", "ann", "/a")
    check.expect("a revocation still works", (came[0], b"in 100 full" in came[2], b"renew" in came[2]), (0, True, True))


def full_of_what_stands(check):
    """A store that is nearly full, of which nothing was overwritten: that's told once by each call, and of a renewed one that no renew helps."""
    store, folder, new = shared_store(check, "standing.store"), os.path.join(check.folder, "standing"), os.path.join(check.folder, "standing.new")
    os.mkdir(folder)
    with open(os.path.join(folder, "x"), "wb") as file:
        file.write(bytes(50_000))
    small = small_front(check, os.stat(store).st_size + 60_000)
    came = front(check, store, "put", folder, "/x", with_front=small)
    check.expect("a nearly full store", (came[0], came[2].count(b"in 100 full")), (0, 1))
    status, _, said = front(check, store, "renew", new, with_front=small)
    check.expect("a renewed one", (status, [line for line in said.splitlines() if b"in 100 full" in line and new.encode() + b" is " in line
                                            and b"a store of its own" in line and b"renew" not in line] == said.splitlines()), (0, True))


def json_of_each(check):
    """What each command prints with --json can be read as JSON, and has no key in it."""
    store, folder, out, copy, back, new = (os.path.join(check.folder, f"json.{part}") for part in ("store", "in", "out", "copy", "back", "new"))
    ben = os.path.join(check.folder, "json.ben")
    os.mkdir(folder)
    check.put("json.in/a", b"hi")
    for words in ((store, "init"), (store, "put", folder, "/t", "--dry-run"), (store, "put", folder, "/t"), (store, "holder", "add", "ann"),
                  (store, "holder", "add", "ben", "--to", ben), (store, "grant", "ann", "/t"), (store, "who"), (store, "grants"),
                  (store, "ls", "/t"), (store, "cat", "/t/a"), (store, "history", "/t/a"), (store, "get", "/t", out), (store, "head"),
                  (store, "revoke", "ann", "/t"), (store, "upgrade"), (store, "backup", copy), (back, "restore", copy),
                  (store, "renew", new)):
        printed = done(check, f"{words[1]} --json", front(check, *words, "--json"))
        keys = [line.split()[-1] for line in map(read, glob.glob(keys_of(check) + "/*/*.key"))]
        check.expect(f"what {words[1]} prints", (bool(json.loads(printed or b"0")), [key for key in keys if key in printed]), (True, []))
    elsewhere, owner = os.path.join(check.folder, "json.keys"), key_file(check, store, "owner.key")
    for words in (("adopt", "--key", owner), ("holder", "adopt", "di", "--key", ben)):
        printed = done(check, f"{words[0]} --json", front(check, store, *words, "--json", keys=elsewhere))
        check.expect(f"what {words[0]} adopt prints", bool(json.loads(printed or b"0")), True)


class Terminal(io.StringIO):
    """What is told on standard error, where that is a terminal."""

    def isatty(self):
        return True


def progress_line(check):
    """What takes more than a second is told on a terminal, in a line that is blanked at the end, and nowhere else."""
    for kind, due in ((Terminal, ["", "reading a store: 3 of 1,000", ""]), (io.StringIO, [""])):
        with contextlib.redirect_stderr(kind()) as told:
            with progress.Progress("reading a store", 1000) as at:
                at.done = 3
                time.sleep(1.3)
        check.expect(f"what is told to {kind.__name__}", told.getvalue().split("\r\x1b[K"), due)
    with contextlib.redirect_stderr(Terminal()) as told:
        check.expect("what passes by", list(progress.followed("abc", "letters", 3)), ["a", "b", "c"])
    check.expect("what is done in less", told.getvalue(), "")
