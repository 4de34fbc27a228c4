"""What the front end promises of keys, grants, locks and older copies, asked of it."""
import fcntl
import glob
import json
import os
import random
import shutil
import stat

from front_calls import Paused, expect_told, front, keys_of, program_that, started
from harness import read

LARGE = random.Random("a large file").randbytes(1_100_000)     # in a store it's one in parts


def all_keys(check):
    for part in (making, init_that_is_killed, sharing, files_granted, forms_granted, stopped_in_a_granted_file, replaced, locks, older_copies,
                 exchanged, stopped_holder, renewed):
        part(check)


def modes(folder):
    """The modes of a folder and of all in it."""
    found = {stat.S_IMODE(os.stat(folder).st_mode)}
    for place, folders, files in os.walk(folder):
        found |= {stat.S_IMODE(os.stat(os.path.join(place, name)).st_mode) for name in folders + files}
    return found


def key_file(check, store, name):
    return os.path.join(keys_of(check), read(store)[9:41].hex(), name)


def done(check, what, came):
    """That it ended with 0 and said nothing; what it printed."""
    check.expect(what, (came[0], came[2]), (0, b""))
    return came[1]


def fresh(check, name):
    """A new store."""
    store = os.path.join(check.folder, name)
    done(check, "init " + name, front(check, store, "init"))
    return store


def making(check):
    """init: who may read what it makes, twice in a row, a program that fails."""
    store = fresh(check, "made.store")
    owner = read(key_file(check, store, "owner.key"))
    check.expect("modes", (modes(keys_of(check)), stat.S_IMODE(os.stat(store).st_mode)), ({0o700, 0o600}, 0o600))
    check.expect("owner's key opens the store", check.call([store, "-", "list"], owner), (0, b"folder /\n", b""))
    before = read(store), sorted(glob.glob(keys_of(check) + "/**", recursive=True))
    expect_told(check, "init twice", front(check, store, "init"), 1, "stands there already")
    check.expect("init twice leaves all", (read(store), sorted(glob.glob(keys_of(check) + "/**", recursive=True)), read(
        key_file(check, store, "owner.key"))), (*before, owner))
    missing = os.path.join(check.folder, "none.store")
    ends = program_that(check, "ends", "exit 7")
    expect_told(check, "init without random bytes", front(check, missing, "init", program=ends), 1, "/dev/urandom")
    left = [name for name in os.listdir(check.folder) if name.startswith((".cryptree", "none"))]
    check.expect("init that failed leaves nothing", left, [])
    expect_told(check, "no program", front(check, missing, "init", program=os.path.join(check.folder, "no")), 1, "CRYPTREE")
    open_folder = os.path.join(check.folder, "open_keys")
    os.mkdir(open_folder, 0o755)
    os.chmod(open_folder, 0o755)
    expect_told(check, "a key folder for all", front(check, missing, "init", keys=open_folder), 1, "chmod 700")
    os.rename(store, store + ".moved")
    done(check, "keys follow a store that moved", front(check, store + ".moved", "holder", "add", "mo"))


def init_that_is_killed(check):
    """A store never has its name before its key stands in the key folder."""
    store = os.path.join(check.folder, "killed.store")
    paused = Paused(check, "made", "{program}; {pause}")
    paused.killed_at(started(check, store, "init", program=paused.path))
    paused.go()
    check.expect("init that was killed", os.path.exists(store), False)
    done(check, "init after it", front(check, store, "init"))
    check.expect("its key", os.path.exists(key_file(check, store, "owner.key")), True)


def sharing(check):
    """holder, grant, revoke and who, and what they refuse."""
    store = fresh(check, "granted.store")
    done(check, "holder add", front(check, store, "holder", "add", "ann"))
    there = os.path.join(check.folder, "ben.key")
    printed = json.loads(done(check, "holder add --to", front(check, store, "holder", "add", "ben", "--to", there, "--json")))
    check.expect("what holder add prints", printed, {"name": "ben", "number": 2, "key": there})
    check.expect("modes of keys", modes(keys_of(check)) | {stat.S_IMODE(os.stat(there).st_mode)}, {0o700, 0o600})
    key, size = read(there), os.stat(store).st_size
    expect_told(check, "a holder twice", front(check, store, "holder", "add", "ann"), 1, "already")
    expect_told(check, "a key file twice", front(check, store, "holder", "add", "cy", "--to", there), 1, "never written over")
    expect_told(check, "a holder's name", front(check, store, "holder", "add", "../x"), 2, "can't be a holder's name")
    check.expect("these write nothing", (read(there), os.stat(store).st_size), (key, size))
    done(check, "grant", front(check, store, "grant", "ann", "/"))
    size = os.stat(store).st_size
    expect_told(check, "a grant that stands", front(check, store, "grant", "ann", "/"), 1, "has-grant", "nothing was done")
    expect_told(check, "a grant on nothing", front(check, store, "grant", "ben", "/no"), 1, "no-path")
    expect_told(check, "a grant to nobody", front(check, store, "grant", "bob", "/"), 1, "ann, ben")
    expect_told(check, "a grant that isn't there", front(check, store, "revoke", "ben", "/"), 1, "no-grant")
    check.expect("refusals write nothing", os.stat(store).st_size, size)
    due = [{"name": "ann", "number": 1, "granted": ["/"], "from": "store"},
           {"name": "ben", "number": 2, "granted": [], "from": "record"}]
    check.expect("who", json.loads(done(check, "who --json", front(check, store, "who", "--json"))), due)
    done(check, "revoke", front(check, store, "revoke", "ann", "/"))
    check.expect("who after it", b"ann  -" in done(check, "who", front(check, store, "who")), True)
    owner = read(key_file(check, store, "owner.key"))
    check.call([store, "/dev/urandom", "run"], owner + b"grant 1 /\n")
    expect_told(check, "a grant by the program", front(check, store, "who"), 1, "otherwise than is recorded")
    check.expect("no key is printed", owner[6:70] in b"".join(front(check, store, "who", "--json")[1:]), False)


def files_granted(check):
    """Grants on single files, small ones and one in parts: who reads them, as they are and in a new store."""
    store, folder = fresh(check, "files.store"), os.path.join(check.folder, "granted files")
    os.makedirs(os.path.join(folder, "in"))
    for name, data in (("My report", b"one"), ("large", LARGE), ("beside", b"two"), ("in/other", b"three")):
        check.put(os.path.join("granted files", name), data)
    done(check, "put", front(check, store, "put", folder, "/trip"))
    for name in ("ann", "ben"):
        done(check, "holder add", front(check, store, "holder", "add", name))
    for name, path in (("ann", "/trip/My report"), ("ann", "/trip/large"), ("ben", "/trip"), ("ben", "/trip/large")):
        done(check, f"grant on {path}", front(check, store, "grant", name, path))
    expect_told(check, "a grant on a file that stands", front(check, store, "grant", "ann", "/trip/large"), 1, "has-grant")
    expect_told(check, "a grant on no file", front(check, store, "grant", "ann", "/trip/none"), 1, "no-path")
    files_are_read(check, store)
    renewed_store = os.path.join(check.folder, "new files.store")
    done(check, "renew", front(check, store, "renew", renewed_store))
    files_are_read(check, renewed_store)
    files_change(check, store, folder)


def files_are_read(check, store):
    """What is told of the grants on files, and what the holder of two of them is shown."""
    for path, due in (("/trip", ["ben"]), ("/trip/large", ["ann", "ben"]), ("/trip/My report", ["ann", "ben"]), ("/trip/in", ["ben"])):
        names = [entry["name"] for entry in json.loads(done(check, "who", front(check, store, "who", path, "--json")))]
        check.expect(f"who reads {path}", names, due)
    check.expect("grants on files", granted_in(check, store), {"/trip": ["ben"], "/trip/My report": ["ann"], "/trip/large": ["ann", "ben"]})
    listed = done(check, "ls", front(check, store, "ls", "-R", "/", "--as", "ann"))
    check.expect("what the holder of two files is shown", listed, b"trip/\ntrip/My report\ntrip/large\n")
    check.expect("and reads", done(check, "cat", front(check, store, "cat", "/trip/large", "--as", "ann")), LARGE)


def files_change(check, store, folder):
    """A granted file is renamed, granted anew, changed, and grows, and a grant on one is taken back."""
    os.rename(os.path.join(folder, "My report"), os.path.join(folder, "report"))
    expect_told(check, "put renamed", front(check, store, "put", folder, "/trip"), 0, "the grant of ann on /trip/My report went with it")
    done(check, "granted anew", front(check, store, "grant", "ann", "/trip/report"))
    check.put(os.path.join("granted files", "report"), b"four")
    done(check, "put changed", front(check, store, "put", folder, "/trip"))
    check.expect("the grant stays", done(check, "cat", front(check, store, "cat", "/trip/report", "--as", "ann")), b"four")
    done(check, "revoke", front(check, store, "revoke", "ann", "/trip/large"))
    check.expect("what is left", done(check, "ls", front(check, store, "ls", "-R", "/", "--as", "ann")), b"trip/\ntrip/report\n")
    check.put(os.path.join("granted files", "report"), LARGE)
    for words, due in ((["--dry-run"], b"ann's grant on it would go too"), ([], b"the grant of ann on /trip/report went with it")):
        came = front(check, store, "put", folder, "/trip", *words)
        check.expect(f"a file that grew {words}", (came[0], due in came[2]), (0, True))
    names = [entry["name"] for entry in json.loads(done(check, "who", front(check, store, "who", "/trip/report", "--json")))]
    check.expect("nobody is left", names, ["ben"])


def granted_in(check, store):
    """Who is told to have a grant on what."""
    return {entry["path"]: entry["names"] for entry in json.loads(done(check, "grants", front(check, store, "grants", "--json")))}


def forms_granted(check):
    """Files of one template: where one goes and another comes, or two get other names, none gets another's grant, and what went is told."""
    store, folder = fresh(check, "forms.store"), os.path.join(check.folder, "forms")
    os.mkdir(folder)
    for name in ("form-ann", "form-nobody"):
        check.put(os.path.join("forms", name), b"a template")
    done(check, "put", front(check, store, "put", folder, "/trip"))
    for name in ("ann", "ben"):
        done(check, "holder add", front(check, store, "holder", "add", name))
    done(check, "grant", front(check, store, "grant", "ann", "/trip/form-ann"))
    os.rename(os.path.join(folder, "form-ann"), os.path.join(folder, "form-ben"))
    expect_lost(check, "a form of another", store, folder, ["ann"])
    expect_told(check, "who had a form", front(check, store, "cat", "/trip/form-ben", "--as", "ann"), 1, "nothing that this key opens")
    os.rename(os.path.join(folder, "form-nobody"), os.path.join(folder, "form-cy"))
    check.expect("a form of nobody's is renamed", b"1 renamed" in done(check, "put", front(check, store, "put", folder, "/trip")), True)
    done(check, "grant", front(check, store, "grant", "ben", "/trip/form-ben"))
    check.put(os.path.join("forms", "form-ann"), b"a template")
    done(check, "put", front(check, store, "put", folder, "/trip"))
    done(check, "grant", front(check, store, "grant", "ann", "/trip/form-ann"))
    for old, new in (("form-ann", "z"), ("form-ben", "c")):
        os.rename(os.path.join(folder, old), os.path.join(folder, new))
    expect_lost(check, "two forms with other names", store, folder, ["ann", "ben"])


def expect_lost(check, what, store, folder, names):
    """That this put tells each of these holders' grants on their forms as gone, would tell it, and leaves no grant."""
    for words, due in ((["--dry-run"], "/trip/form-{0} is gone, and {0}'s grant on it would go too"),
                       ([], "the grant of {0} on /trip/form-{0} went with it")):
        came = front(check, store, "put", folder, "/trip", *words)
        missing = [name for name in names if due.format(name).encode() not in came[2]]
        check.expect(f"{what} {words}", (came[0], len(came[2].splitlines()), missing), (0, len(names), []))
    check.expect(f"{what}: who is granted", granted_in(check, store), {})


def stopped_in_a_granted_file(check):
    """Grants on a large file that a put was stopped in: one is taken back and one given before the next put finishes it."""
    store, folder = fresh(check, "half.store"), os.path.join(check.folder, "half")
    os.mkdir(folder)
    check.put(os.path.join("half", "large"), LARGE)
    done(check, "put", front(check, store, "put", folder, "/trip"))
    for name in ("ann", "ben"):
        done(check, "holder add", front(check, store, "holder", "add", name))
    done(check, "grant", front(check, store, "grant", "ann", "/trip/large"))
    check.put(os.path.join("half", "large"), LARGE[::-1])
    room = os.path.getsize(store) + 100_000     # for a renaming, and for no part of the file
    stopped = program_that(check, "stopped", f'ulimit -f {room // 512}; exec "{check.program}" "$@"')
    came = front(check, store, "put", folder, "/trip", program=stopped)
    check.expect("a put that is stopped", (came[0], b"was ended by signal" in came[2]), (1, True))
    check.expect("it's half", b"/trip/large-.half" in read(key_file(check, store, "holders.json")), True)
    done(check, "revoke", front(check, store, "revoke", "ann", "/trip/large"))
    check.expect("nobody is granted it", granted_in(check, store), {})
    done(check, "grant", front(check, store, "grant", "ben", "/trip/large"))
    empty = os.path.join(check.folder, "empty")
    os.mkdir(empty)
    expect_told(check, "half and gone", front(check, store, "put", empty, "/trip", "--dry-run"), 0, "/trip/large is gone, and ben's grant")
    done(check, "put again", front(check, store, "put", folder, "/trip"))
    check.expect("who reads it then", granted_in(check, store), {"/trip/large": ["ben"]})
    check.expect("and what", done(check, "cat", front(check, store, "cat", "/trip/large", "--as", "ben")), LARGE[::-1])


def replaced(check):
    """A holder gets a new key: who has the old one is shown nothing, and the new one shows what the old one did."""
    store, folder = fresh(check, "group.store"), os.path.join(check.folder, "group")
    os.makedirs(os.path.join(folder, "in"))
    for name, data in (("in/notes", b"one"), ("large", LARGE), ("beside", b"two")):
        check.put(os.path.join("group", name), data)
    done(check, "put", front(check, store, "put", folder, "/trip"))
    for name in ("team", "other"):
        done(check, "holder add", front(check, store, "holder", "add", name))
    for name, path in (("team", "/trip/large"), ("other", "/trip/large"), ("team", "/trip/in")):
        done(check, f"grant on {path}", front(check, store, "grant", name, path))
    own, first = key_file(check, store, "team.key"), read(key_file(check, store, "team.key"))
    shown, granted = check.call([store, "-", "list"], first), ["/trip/in", "/trip/large"]
    printed = json.loads(done(check, "holder replace", front(check, store, "holder", "replace", "team", "--json")))
    check.expect("what holder replace prints", printed, {"name": "team", "number": 3, "key": own, "granted": granted})
    check.expect("the old key is kept", read(own + ".1") == first, True)
    check.expect("what both keys show", [check.call([store, "-", "list"], key) for key in (first, read(own))], [(0, b"", b""), shown])
    due = [{"name": "other", "number": 2, "granted": ["/trip/large"], "from": "store"},
           {"name": "team", "number": 3, "granted": granted, "from": "store"}]
    check.expect("who", json.loads(done(check, "who", front(check, store, "who", "--json"))), due)
    there, size = os.path.join(check.folder, "group.key"), os.stat(store).st_size
    expect_told(check, "nobody is replaced", front(check, store, "holder", "replace", "nobody"), 1, "no holder is called")
    expect_told(check, "to what stands", front(check, store, "holder", "replace", "team", "--to", store), 1, "never written over")
    check.expect("these write nothing", os.stat(store).st_size, size)
    done(check, "holder replace --to", front(check, store, "holder", "replace", "team", "--to", there))
    check.expect("the new key alone shows it", check.call([store, "-", "list"], read(there)), shown)
    check.expect("what the key folder has", os.path.exists(own), False)
    check.expect("modes of keys", modes(keys_of(check)) | {stat.S_IMODE(os.stat(there).st_mode)}, {0o700, 0o600})
    stopped_replacements(check, store, shown)
    replacement_without_room(check, store, folder)


def stopped_replacements(check, store, shown):
    """What a stop left of a replacement is ended by the next one, whether or not the key folder has the old key."""
    owner, own = read(key_file(check, store, "owner.key")), key_file(check, store, "team.key")
    for lines in (), ("grant {1} /trip/in",), ("grant {1} /trip/in", "grant {1} /trip/large-.parts", "revoke {0} /trip/in"):
        for is_known in (True, False):
            done(check, "holder replace", front(check, store, "holder", "replace", "team"))
            old, number = read(own), int(read(own).split(b" ")[1])
            reply = check.call([store, "/dev/urandom", "run"], owner + b"holder\n")[1]
            typed = "".join(line.format(number, number + 1) + "\n" for line in lines).encode()
            _, replies, _ = check.call([store, "/dev/urandom", "run"], owner + typed)
            os.chmod(check.put("next", reply + replies), 0o600)
            os.rename(os.path.join(check.folder, "next"), own + ".next")
            if not is_known:
                os.remove(own)
            what = f"a stop behind {lines}, the old key {'is' if is_known else 'is not'} known"
            done(check, what, front(check, store, "holder", "replace", "team"))
            came = [check.call([store, "-", "list"], key) for key in (old, read(own))]
            check.expect(what, (came, read(own) == reply, os.path.exists(own + ".next")), ([(0, b"", b""), shown], True, False))
            done(check, "who", front(check, store, "who"))


def replacement_without_room(check, store, folder):
    """The disk fails in the grants of a replacement: what was done is told, and the next one ends it."""
    for n in range(20):
        os.mkdir(os.path.join(folder, f"d{n}"))
    done(check, "put", front(check, store, "put", folder, "/trip"))
    for n in range(20):
        done(check, "grant", front(check, store, "grant", "team", f"/trip/d{n}"))
    own = key_file(check, store, "team.key")
    old, shown = read(own), check.call([store, "-", "list"], read(own))
    stopped = program_that(check, "no_room", f'ulimit -f {(os.path.getsize(store) + 3000) // 512}; exec "{check.program}" "$@"')
    came = front(check, store, "holder", "replace", "team", program=stopped)
    check.expect("a replacement without room", (came[0], len(came[2].splitlines()), os.path.exists(own + ".next")), (1, 1, True))
    done(check, "and then", front(check, store, "holder", "replace", "team"))
    check.expect("all went over", [check.call([store, "-", "list"], key) for key in (old, read(own))], [(0, b"", b""), shown])


def locks(check):
    """A store that another is at: waiting for it, and not waiting."""
    store = fresh(check, "locked.store")
    with open(store, "rb") as file:
        for how, words in ((fcntl.LOCK_EX, ["who"]), (fcntl.LOCK_EX, ["holder", "add", "ann"]), (fcntl.LOCK_SH, ["holder", "add", "ann"])):
            fcntl.flock(file, how)
            expect_told(check, f"{words[0]} without waiting", front(check, store, *words, "--no-wait"), 1, "another is at")
        done(check, "two readers", front(check, store, "who"))
        process = started(check, store, "holder", "add", "ann")
        said = process.stderr.readline()
        check.expect("it says that it waits", b"waiting for another" in said and process.poll() is None, True)
        fcntl.flock(file, fcntl.LOCK_UN)
        done(check, "and goes on", (process.wait(), *process.communicate()))
    processes = [started(check, store, "holder", "add", f"holder{number}") for number in range(4)]
    check.expect("four writers at once", [(process.communicate()[0][:6], process.returncode) for process in processes],
                 [(b"holder", 0)] * 4)
    check.expect("all of them are there", done(check, "who", front(check, store, "who")).count(b"\n"), 5)


def exchanged(check):
    """Two stores of one owner's that were exchanged on the disk: neither is written for the holders of the other."""
    one, two = fresh(check, "one.store"), fresh(check, "two.store")
    images = read(one), read(two)
    check.put("one.store", images[1])
    check.put("two.store", images[0])
    expect_told(check, "an exchanged store is written", front(check, one, "holder", "add", "ann"), 1, "another store", "--accept")
    expect_told(check, "an exchanged store is read", front(check, two, "who"), 1, "another store", "--accept")
    check.expect("it isn't written", (read(two), read(one)), images)
    check.put("one.store", images[0])
    done(check, "put back", front(check, one, "holder", "add", "ann"))
    os.rename(one, two)
    came = front(check, two, "holder", "add", "ben", "--accept")
    check.expect("moved to where another stood", (came[0], b"taken as it is" in came[2]), (0, True))
    done(check, "and then for good", front(check, two, "holder", "add", "cy"))


def stopped_holder(check):
    """A key file that a stopped `holder add` left is taken, another's isn't."""
    store = fresh(check, "again.store")
    done(check, "holder add", front(check, store, "holder", "add", "ann"))
    ann, record = key_file(check, store, "ann.key"), key_file(check, store, "holders.json")
    key, kept = read(ann), read(record)
    os.remove(record)
    done(check, "holder add again", front(check, store, "holder", "add", "ann"))
    check.expect("it's the same holder", (read(ann), read(record)), (key, kept))
    os.rename(ann, key_file(check, store, "ben.key"))
    expect_told(check, "a key file of another", front(check, store, "holder", "add", "ben"), 1, "never written over")


def older_copies(check):
    """A copy that was put back, one that was written elsewhere, one that only went on, and a session that was killed."""
    store = fresh(check, "older.store")
    older = read(store)
    done(check, "a writing", front(check, store, "holder", "add", "ann"))
    newest, owner = read(store), read(key_file(check, store, "owner.key"))
    for what, bytes_there, run in (("put back", older, b""), ("written elsewhere", older, b"holder\nholder\nholder\n")):
        copy = check.put("older.store", bytes_there)
        check.call([copy, "/dev/urandom", "run"], owner + run)
        left = read(copy)
        expect_told(check, f"a copy that was {what}", front(check, store, "holder", "add", "ben"), 1, "older copy", "--accept")
        check.expect(f"a copy that was {what} isn't written", read(store) == left, True)
        expect_told(check, f"nor read, a copy that was {what}", front(check, store, "who"), 1, "older copy", "--accept")
        came = front(check, store, "who", "--accept")
        check.expect(f"a copy that was {what} is read with --accept", (came[0], b"read as it is" in came[2]), (0, True))
    check.put("older.store", newest)
    done(check, "the newest one again", front(check, store, "grant", "ann", "/"))
    newest = read(store)
    check.call([store, "/dev/urandom", "run"], owner + b"mkdir /by-the-program\n")
    done(check, "one that went on", front(check, store, "revoke", "ann", "/"))
    check.put("older.store", newest)
    came = front(check, store, "holder", "add", "ben", "--accept")
    check.expect("taken as it is", (came[0], b"older copy" in came[2], b"whoever has both copies" in came[2]), (0, True, True))
    done(check, "and then for good", front(check, store, "holder", "add", "cy"))
    kept = key_file(check, store, "last")
    os.rename(kept, kept + ".gone")
    expect_told(check, "nothing known", front(check, store, "holder", "add", "di"), 1, "--accept")
    os.rename(kept + ".gone", kept)
    killed_session(check, store)


def killed_session(check, store):
    """A session that was killed: what it had written goes on, and where nothing of it is there that is told."""
    before, paused = read(store), Paused(check, "begun", "{pause}; exec {program}")
    paused.killed_at(started(check, store, "holder", "add", "ed", program=paused.path))
    expect_told(check, "the program still has the lock", front(check, store, "holder", "add", "ed", "--no-wait"), 1, "another is at")
    paused.go()
    with open(store, "rb") as file:
        fcntl.flock(file, fcntl.LOCK_EX)
        after = read(store)
    check.put("older.store", before)
    expect_told(check, "put back after a kill", front(check, store, "holder", "add", "fo"), 1, "was killed", "--accept")
    shutil.copyfile(check.put("after", after), store)
    goes_on = front(check, store, "holder", "add", "fo")
    check.expect("what a killed session left", goes_on[0], 0 if after != before else 1)


def renewed(check):
    """A new store of an older copy, with new keys for the same holders."""
    store, new = fresh(check, "old.store"), os.path.join(check.folder, "new.store")
    owner = read(key_file(check, store, "owner.key"))
    check.call([store, "/dev/urandom", "run"], owner + b"mkdir /a\nmkdir /a/b\nwrite /a/b/c 6869\nwrite /empty \n")
    for name, path in (("ann", "/a"), ("ben", "/a/b"), ("cy", None)):
        done(check, "holder add", front(check, store, "holder", "add", name))
        if path:
            done(check, "grant", front(check, store, "grant", name, path))
    older, copy = read(store), os.path.join(check.folder, "backup")
    done(check, "backup", front(check, store, "backup", copy))
    expect_told(check, "backup twice", front(check, store, "backup", copy), 1, "never written over")
    check.expect("the backup", (read(copy) == older, stat.S_IMODE(os.stat(copy).st_mode)), (True, 0o600))
    check.call([store, "/dev/urandom", "run"], owner + b"mkdir /later\n")
    done(check, "grant", front(check, store, "grant", "cy", "/later"))
    os.replace(copy, store)
    expect_told(check, "a backup is written", front(check, store, "holder", "add", "di"), 1, "older copy", "renew")
    came = front(check, store, "renew", new)
    check.expect("renew", (came[0], b"the grant of cy on /later" in came[2], read(store) == older), (1, True, True))
    for name in ("owner", "ann", "ben"):
        lists = [check.call([path, "-", "list"], read(key_file(check, path, name + ".key"))) for path in (store, new)]
        check.expect(f"what {name} is shown", lists[0] == lists[1] and lists[0][0], 0)
        is_new = read(key_file(check, store, name + ".key")) != read(key_file(check, new, name + ".key"))
        check.expect(f"{name} has a new key", is_new, True)
    check.expect("modes after renew", modes(keys_of(check)), {0o700, 0o600})
    done(check, "who of the new one", front(check, new, "who"))
    for path, due in (("/", []), ("/a", ["ann"]), ("/a/b", ["ann", "ben"]), ("/a/b/d", ["ann", "ben"]), ("/ab", [])):
        names = [entry["name"] for entry in json.loads(done(check, "who of a path", front(check, new, "who", path, "--json")))]
        check.expect(f"who reads {path}", names, due)
    done(check, "it can be written", front(check, new, "grant", "cy", "/a"))
    expect_told(check, "renew to what stands", front(check, store, "renew", new), 1, "stands there already")
    check.expect("nothing half is left", os.path.exists(new + ".half"), False)
    less = f'case "$(readlink "$1") $3" in *.half\\ list*) "{check.program}" "$@" | sed "\\$d" ;; *) exec "{check.program}" "$@" ;; esac'
    came = front(check, store, "renew", new + "2", program=program_that(check, "less", less))
    check.expect("a new store that shows less", (came[0], b"doesn't hold what" in came[2], os.path.exists(new + "2"), read(store) == older),
                 (1, True, False, True))
