"""Real folders through tools/cryptree-folder: what goes in comes out, again writes nothing, a stop leaves the old or the new one."""
import hashlib
import json
import os
import random
import shutil
import signal
import subprocess
import sys
import time

import front_hostile
import front_plans
import harness
from front_calls import FRONT, front, program_that, started
from store_limits import FILE_LIMIT

sys.path.insert(0, os.path.dirname(FRONT))
sys.dont_write_bytecode = True

from folder_store import names     # noqa: E402 (the package stands beside the front end)

RANDOM = random.Random("front folders")
LARGE = RANDOM.randbytes(3 * FILE_LIMIT)
LONG = "n" * 200
TREE = {
    "notes": b"hi\n", "empty": b"", "nothing": None, "Meine Übung": None, "Meine Übung/a+b, c.txt": b"plus", "Meine Übung/leer": None,
    ".hidden": b"\0", ".hid-.x": b"1", "-dash": None, "-dash/--help": b"2", "a - b_c": b"3", "large": LARGE, "-.index": b"mine",
    "large-.parts": b"4", LONG: b"5", "ü" * 100: None, "ü" * 100 + "/" + "ü" * 120: b"6", "new\nline": b"7", "deep" + "/d" * 50: None,
}
REAL = ("/usr/share/doc", "/usr/include", os.path.join(os.path.dirname(os.path.dirname(FRONT)), ".git"), os.path.dirname(FRONT))
SOME = 100      # names of each of these
LINKS = {"link": "empty", "Meine Übung/up": "../large", "-dash/folder": "../Meine Übung", "nowhere": "no such file"}


def make(folder, tree, links=()):
    """A folder with these files and links, and modes and times that aren't those of now."""
    for path, data in tree.items():
        place = os.path.join(folder, path)
        os.makedirs(place if data is None else os.path.dirname(place), exist_ok=True)
        if data is not None:
            if os.path.exists(place):
                os.remove(place)
            with open(place, "wb") as file:
                file.write(data)
    for path in links:
        os.symlink(links[path], os.path.join(folder, path))
    for number, (place, folders, files) in enumerate(os.walk(folder, topdown=False)):
        for name in files + folders + ["."]:
            inside = os.path.join(place, name)
            if not os.path.islink(inside):
                os.chmod(inside, (0o755, 0o700)[number % 2] if os.path.isdir(inside) else (0o644, 0o755, 0o444)[len(name) % 3])
            os.utime(inside, ns=(0, 981173106789012345 + len(name) * 10**9 + number), follow_symlinks=False)


def state(folder):
    """All in a folder by paths: kind and mode, time, and bytes or target; of the folder itself the time."""
    found = {"": os.stat(folder).st_mtime_ns}
    for place, folders, files in os.walk(folder):
        for name in folders + files:
            inside = os.path.join(place, name)
            status = os.lstat(inside)
            found[os.path.relpath(inside, folder)] = (status.st_mode, status.st_mtime_ns, holds(inside))
    return found


def holds(place):
    if os.path.islink(place):
        return os.readlink(place)
    return None if os.path.isdir(place) else hashlib.sha256(harness.read(place)).digest()


def bytes_of(folder):
    return {path: entry[2] for path, entry in state(folder).items() if path}


class Folders:
    """A store, a real folder, and what the check expects of both."""

    def __init__(self, check, name):
        self.check, self.name = check, name
        self.store, self.folder, self.out = (os.path.join(check.folder, f"folders.{name}.{part}") for part in ("store", "folder", "out"))
        self.ends("init", 0, "init")

    def ends(self, what, status, *words, program=None, says=b""):
        """What it prints and says, with this status due, and these words among what it says."""
        found, printed, said = front(self.check, self.store, *words, program=program)
        self.check.expect(f"{self.name}: {what}", (found, says in said or said), (status, True))
        return printed, said

    def size(self):
        return os.path.getsize(self.store)

    def put(self, what, *words, status=0):
        return self.ends(what, status, "put", self.folder, "/trip", *words)

    def comes_back(self, what):
        """That get gives what the folder is, and that putting it again writes nothing."""
        self.ends(f"get {what}", 0, "get", "/trip", self.out, "--replace")
        came, due = state(self.out), state(self.folder)
        others = sorted(path for path in came.keys() | due.keys() if came.get(path) != due.get(path))
        self.check.expect(f"{self.name}: {what} comes back", others, [])
        before = harness.read(self.store)
        printed, _ = self.put(f"{what} again")
        is_same = harness.read(self.store) == before
        self.check.expect(f"{self.name}: {what} again writes nothing", (is_same, b"nothing to do" in printed), (True, True))

    def path(self, name):
        return os.path.join(self.folder, name)


def copy_some(source, target):
    """A copy of the first files and links of a folder, with modes and times."""
    found = sorted(os.path.join(place, name) for place, _, names in os.walk(source) for name in names)
    for path in [path for path in found if os.path.islink(path) or os.path.isfile(path)][:SOME]:
        inside = os.path.join(target, os.path.relpath(path, source))
        os.makedirs(os.path.dirname(inside), exist_ok=True)
        shutil.copy2(path, inside, follow_symlinks=False)
    for place, _, _ in os.walk(target, topdown=False):
        shutil.copystat(os.path.join(source, os.path.relpath(place, target)), place)


def real_ones(check):
    """Some of the machine's docs and headers, of a .git, and of these tools: what there is of them, in one put."""
    at = Folders(check, "real")
    os.mkdir(at.folder)
    for number, source in enumerate(filter(os.path.isdir, REAL)):
        copy_some(source, at.path(f"from {number}"))
    at.put("put")
    status, _, said = front(check, at.store, "get", "/trip", at.out, "--links-outside")
    check.expect("real folders", (status, said), (0, b""))
    done = subprocess.run(["diff", "-r", "--no-dereference", at.folder, at.out], capture_output=True, check=False)
    check.expect("diff -r of them", (done.returncode, done.stdout[:300], state(at.out) == state(at.folder)), (0, b"", True))
    printed, _ = at.put("again")
    check.expect("again writes nothing", b"nothing to do" in printed, True)


def rule_of_names(check):
    """Names of the bytes that are hard for the rule, there and back."""
    wrong = []
    for _ in range(3000):
        name = bytes(RANDOM.choice(b"ab-._- \xc3\xbc\n+Z9") for _ in range(RANDOM.randint(1, RANDOM.choice([4, 20, 255]))))
        for mark in ("", names.PARTS) if name not in (b".", b"..") else ():
            inside = names.pieces(name, mark)
            text = "".join(piece.removesuffix(names.MORE) for piece in inside[:-1]) + inside[-1].removesuffix(mark)
            shown = os.fsencode(names.real_path(names.joined(inside)))
            if (names.real_name(text, mark, inside), shown) != (name, b"/" + name) or max(map(len, inside)) > 64:
                wrong.append(name)
    check.expect("names that come back otherwise", wrong, [])


def there_and_back(check):
    at = Folders(check, "whole")
    make(at.folder, TREE, LINKS)
    at.put("put")
    at.comes_back("all")
    check.expect("the new folder is private", os.stat(at.out).st_mode & 0o777, 0o700)
    before, size = state(at.folder), at.size()
    os.remove(at.path("notes"))
    os.rename(at.path("large"), at.path("large, too"))
    os.rename(at.path("Meine Übung/a+b, c.txt"), at.path("Meine Übung/other"))
    os.rename(at.path(LONG), at.path("nothing/" + LONG))
    make(at.folder, {"-.index": b"changed", "new/one": b"new"})
    at.put("changes")
    at.comes_back("changes")
    check.expect("a large file that was renamed isn't written again", at.size() - size < 100_000, True)
    check.expect("the changes were some", len(before.items() - state(at.folder).items()) > 5, True)
    size = at.size()
    make(at.folder, {"large, too": LARGE[:FILE_LIMIT] + b"x" + LARGE[FILE_LIMIT + 1:-1]})
    at.put("one byte of a large file")
    check.expect("of a large file only changed parts are written", at.size() - size < 2_300_000, True)
    at.comes_back("one byte of a large file")
    return at


def kinds_that_change(at):
    """Files that become folders and links, and the other way, and large files that become small ones."""
    os.remove(at.path("empty"))
    os.remove(at.path("link"))
    os.remove(at.path("large, too"))
    shutil.rmtree(at.path("Meine Übung"))
    make(at.folder, {"empty/inside": b"1", "link": b"2", "large, too": b"small", "Meine Übung": b"3", ".hidden": LARGE[:2 * FILE_LIMIT]},
         {"link2": "link"})
    at.put("other kinds")
    at.comes_back("other kinds")
    shutil.rmtree(at.path("deep"))
    os.remove(at.path("link2"))
    at.put("keep", "--keep")
    at.ends("get what was kept", 0, "get", "/trip/deep/d", at.out + ".kept")
    printed, _ = at.ends("ls what was kept", 0, "ls", "--json", "/trip")
    at.check.expect("a kept link", [entry["target"] for entry in json.loads(printed) if entry["path"] == "link2"], ["link"])
    os.remove(at.path("-dash/--help"))
    shutil.rmtree(at.path("empty"))
    make(at.folder, {"empty": b""})
    before = harness.read(at.store)
    at.ends("a folder that would have to go", 1, "put", at.folder, "/trip", "--keep", says=b"put it without --keep")
    at.check.expect("nothing was done", harness.read(at.store) == before, True)
    printed, _ = at.put("dry run", "--dry-run")
    at.check.expect("a dry run", (harness.read(at.store) == before, b"rm /trip/-dash/--help" in printed), (True, True))
    at.put("without keep")
    at.comes_back("what is left")


def what_can_not_be_kept(check):
    at = Folders(check, "skip")
    make(at.folder, {"good": b"1", "linked": b"2", "gone": b"3", "key": b"owner " + b"0" * 64 + b"\n"})
    os.remove(at.path("key"))
    at.put("before")
    os.mkfifo(at.path("pipe"))
    os.link(at.path("linked"), at.path("linked again"))
    make(at.path("deep" + "/d" * 200), {"er": b""})
    make(at.path("d" + "/e" * 60), {"f": b"1", "f2": LARGE[:FILE_LIMIT + 1], "in": None})
    os.symlink("f", at.path("d" + "/e" * 60 + "/f3"))
    os.remove(at.path("gone"))
    os.mkfifo(at.path("gone"))
    make(at.folder, {"key": b"owner " + b"0" * 64 + b"\n", "good": b"1 new"})
    os.remove(at.path("pipe"))
    os.mkfifo(at.path("pipe"))
    before = harness.read(at.store)
    _, said = at.put("what can't be kept", status=1)
    causes = (b"pipe is a fifo", b"gone is a fifo", b"linked again is a hard link of linked", b"key is a key of a store",
              b"deep" + b"/d" * 62 + b" would have more than 64 names", b"nothing was done")
    check.expect("each cause", ([cause for cause in causes if cause not in said], harness.read(at.store) == before), ([], True))
    _, said = at.put("with keys", "--with-keys", "--dry-run", status=1)
    check.expect("a key that is asked for", b"key is a key" in said, False)
    at.put("skip", "--skip", status=1)
    printed, _ = at.ends("ls", 0, "ls", "/trip")
    check.expect("what was left out stays", printed.split(b"\n"), [b"d/", b"deep/", b"gone", b"good", b"linked", b"linked again", b""])
    printed, _ = at.ends("ls what is deep", 0, "ls", "/trip/d" + "/e" * 60)
    check.expect("what is deep", printed, b"f\nf2\nf3\nin/\n")
    at.ends("no folder", 1, "put", at.path("good"), "/trip", says=b"is no folder")
    at.ends("no path", 2, "put", at.folder, "trip", says=b"is no path of a store")
    at.ends("into a file", 1, "put", at.folder, "/trip/good", "--dry-run", "--skip", says=b"is a file in the store")
    make(check.folder + "/folders.plain", {"x": b"x", "large": LARGE[:FILE_LIMIT + 1]})
    at.ends("a large one beside", 0, "put", check.folder + "/folders.plain", "/plain")
    at.ends("into a large file", 1, "put", check.folder + "/folders.plain", "/plain/large/in", says=b"/plain/large is a file in the store")
    at.ends("get a file", 1, "get", "/trip/good", at.out, says=b"get takes a folder")
    at.ends("get what isn't there", 1, "get", "/none", at.out, says=b"nothing that this key opens")
    at.ends("get over something", 1, "get", "/trip", at.folder, says=b"has something in it")
    at.ends("get over the store", 1, "get", "/trip", check.folder, "--replace", says=b"in it, so it isn't replaced")
    check.expect("nothing was made", (os.path.exists(at.out), os.path.exists(at.store)), (False, True))


def shared(check):
    """What a holder gets of a folder, and what they don't."""
    at = Folders(check, "shared")
    make(at.folder, {"Open plans/one": b"1", "closed/two": b"old", "closed/three": b"3"}, {"Open plans/link": "one"})
    at.put("put")
    make(at.folder, {"closed/two": b"new"})
    at.put("closed, too")
    at.ends("holder", 0, "holder", "add", "ann")
    at.ends("grant", 0, "grant", "ann", "/trip/Open plans")
    at.ends("get", 0, "get", "/", at.out, "--as", "ann")
    come, due = state(at.out), state(at.folder)
    check.expect("what is granted", {path: come[path] for path in come if "/" in path[5:]},
                 {"trip/" + path: due[path] for path in due if path.startswith("Open plans/")})
    check.expect("and no more", sorted(come), ["", "trip", "trip/Open plans", "trip/Open plans/link", "trip/Open plans/one"])
    os.rename(at.path("closed/two"), at.path("Open plans/two"))
    at.put("what goes to another folder")
    printed, _ = at.ends("its history", 0, "history", "--json", "/trip/Open plans/two", "--as", "ann")
    versions = [entry["sha256"] for entry in json.loads(printed)]
    check.expect("what it held elsewhere isn't shown", versions, [hashlib.sha256(b"new").hexdigest()])
    os.rename(at.path("Open plans"), at.path("Renamed plans"))
    printed, _ = at.put("a granted folder that was renamed")
    check.expect("it's renamed in the store", b" 1 renamed, 0 gone" in printed, True)
    printed, _ = at.ends("ls as the holder", 0, "ls", "/trip/Renamed plans", "--as", "ann")
    check.expect("the grant follows", printed, b"link\none\ntwo\n")
    os.rename(at.path("Renamed plans"), at.path("changed"))
    make(at.folder, {"changed/one": b"new"})
    at.ends("a grant that would go", 0, "put", at.folder, "/trip", "--dry-run", says=b"ann's grant on it would go too")
    at.ends("a grant that goes", 0, "put", at.folder, "/trip", says=b"grant of ann on /trip/Renamed plans went with it")
    at.ends("cat what isn't granted", 1, "cat", "/trip/closed/three", "--as", "ann", says=b"nothing that this key opens")
    wrong = check.put("wrong.key", b"holder 1 " + b"0" * 64 + b"\n")
    os.chmod(wrong, 0o600)
    at.ends("get with a wrong key", 1, "get", "/trip", at.out + ".wrong", "--key", wrong, says=b"this key is not one of")
    check.expect("it makes nothing", os.path.exists(at.out + ".wrong"), False)


def looking(at):
    """The words that print, over what the check put last."""
    make(at.folder, {"notes": b"one"})
    at.put("put once")
    make(at.folder, {"notes": b"second"})
    at.put("put twice")
    printed, _ = at.ends("cat", 0, "cat", "/trip/notes")
    at.check.expect("cat", printed, b"second")
    printed, _ = at.ends("history", 0, "history", "--json", "/trip/notes")
    at.check.expect("history", [(entry["name"], entry["size"]) for entry in json.loads(printed)], [("notes", 3), ("notes", 6)])
    printed, _ = at.ends("ls -l", 0, "ls", "-l", "/trip/notes")
    changed = time.strftime("%Y-%m-%d %H:%M:%S", time.localtime(981173111)).encode()
    at.check.expect("ls -l", printed, b"-r--r--r--         6 " + changed + b" notes\n")
    printed, _ = at.ends("ls -R", 0, "ls", "-R", "/trip/nothing")
    at.check.expect("ls -R", printed, os.fsencode(LONG) + b"\n")
    at.ends("cat a folder", 1, "cat", "/trip", says=b"is a folder")
    printed, _ = at.ends("a name with a newline", 0, "ls", "/trip")
    at.check.expect("a name with a newline", b"new\\x0aline\n" in printed, True)


def stopped_puts(check):
    """A program that ends after some lines: what stands then is whole files, old or new, or none is made of it; the next put finishes."""
    at = Folders(check, "stopped")
    make(at.folder, {"large": LARGE[:FILE_LIMIT + 1], "b": b"old", "gone": LARGE[:FILE_LIMIT + 2]})
    at.put("old")
    old = bytes_of(at.folder)
    make(at.folder, {"large": LARGE[1:FILE_LIMIT + 3], "b": b"new", "more/large": LARGE[2:FILE_LIMIT + 5]})
    os.remove(at.path("gone"))
    new = bytes_of(at.folder)
    for lines in (1, 2, 4, 5, 7, 10, 13, 99):
        stops = program_that(check, "stops", f'[ "$3" = run ] || exec {check.program} "$@"\nsed -u {lines}q | {check.program} "$@"')
        status, _, _ = front(check, at.store, "put", at.folder, "/trip", program=stops)
        shutil.rmtree(at.out, ignore_errors=True)
        got, _, said = front(check, at.store, "get", "/trip", at.out)
        come = bytes_of(at.out) if got == 0 else {}
        others = [path for path in come if come[path] not in (old.get(path, 0), new.get(path, 0))]
        check.expect(f"after a stop at line {lines}", (got, b"half written" in said, others), (1, True, []) if got else (0, False, []))
        if status == 0:
            break
    check.expect("it is finished after some stops", (status, lines > 4), (0, True))
    at.comes_back("what was stopped")


def stopped_gets(check, at):
    """A get that is killed leaves the folder as it was, or the new one."""
    shutil.rmtree(at.out, ignore_errors=True)
    shutil.copytree(at.folder, at.out, symlinks=True)
    make(at.out, {"mine": b"old"})
    old, new = state(at.out), state(at.folder)
    for wait in (0.15, 0.3):
        process = started(check, at.store, "get", "/trip", at.out, "--replace")
        time.sleep(wait)
        process.send_signal(signal.SIGKILL)
        process.communicate()
        check.expect(f"a get that is killed after {wait} s", state(at.out) in (old, new), True)


def puts_that_are_killed(check):
    """A put that is killed is finished by the next; of two at once each does its own. Where the killed ones had written nothing yet, as on a
    slow machine, --accept is what goes on."""
    at, other = Folders(check, "killed"), os.path.join(check.folder, "folders.other")
    make(at.folder, {f"{part}/{name}": os.urandom(3000) for part in "abc" for name in range(20)})
    for wait in (0.2, 0.3):
        process = started(check, at.store, "put", at.folder, "/trip")
        time.sleep(wait)
        process.send_signal(signal.SIGKILL)
        process.communicate()
    make(other, {"one": b"1", "two": LARGE[:2000]})
    both = [started(check, at.store, "put", folder, path, "--accept") for folder, path in ((at.folder, "/trip"), (other, "/other"))]
    ends = [process.communicate() and process.returncode for process in both]
    check.expect("two puts at once", ends, [0, 0])
    at.comes_back("what was killed")
    at.ends("get the other", 0, "get", "/other", at.out + ".other")
    check.expect("the other", state(at.out + ".other"), state(other))


def all_folders(check):
    front_plans.all_plans(check)
    front_hostile.all_hostile(check)
    rule_of_names(check)
    real_ones(check)
    at = there_and_back(check)
    kinds_that_change(at)
    looking(at)
    what_can_not_be_kept(check)
    shared(check)
    stopped_puts(check)
    puts_that_are_killed(check)
    stopped_gets(check, at)


if __name__ == "__main__":
    harness.main(__doc__, all_folders)
