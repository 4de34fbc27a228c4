"""The messages of the front end: for each cause what is told, and that the status isn't 0."""
import os
import resource
import socket
import subprocess

from front_calls import FRONT, expect_told, front, keys_of, program_that, shell
from front_keys import done, fresh, key_file
from harness import read


def all_faults(check):
    stores(check)
    key_files(check)
    statuses(check)
    lines_that_are_cut(check)
    full_disk(check)
    words(check)


def stores(check):
    """What stands where a store is looked for."""
    pipe, folder, plug = (os.path.join(check.folder, name) for name in ("pipe", "a_folder", "plug"))
    os.mkfifo(pipe)
    os.mkdir(folder)
    with socket.socket(socket.AF_UNIX) as made:
        made.bind(plug)
    good = read(fresh(check, "good.store"))
    for path, part in ((os.path.join(check.folder, "missing"), "there is no store"), (os.path.join(folder, "x", "y"), "there is no store"),
                       (pipe, "a pipe"), (folder, "is a folder"), (plug, "a socket"), (check.put("empty", b""), "is empty"),
                       (check.put("other", b"x" * 100), "is not a store"), (check.put("short", good[:30]), "is not a store")):
        for command in (("who",), ("holder", "add", "ann")):
            expect_told(check, f"{command[0]} of {os.path.basename(path)}", front(check, path, *command), 1, part)
    owner, changed = read(key_file(check, os.path.join(check.folder, "good.store"), "owner.key")), bytearray(good)
    changed[300] ^= 1
    path = check.put("good.store", bytes(changed))
    expect_told(check, "a changed store is written", front(check, path, "holder", "add", "ann"), 1, "older copy")
    check.put("tampered.key", owner)
    os.chmod(os.path.join(check.folder, "tampered.key"), 0o600)
    came = front(check, path, "holder", "add", "ann", "--accept")
    check.expect("a tampered store", (came[0], b"was tampered with (tampered batch 2 at 786)" in came[2]), (1, True))


def key_files(check):
    """Key files that aren't."""
    store = fresh(check, "keys.store")
    done(check, "holder add", front(check, store, "holder", "add", "ann"))
    owner, ann = key_file(check, store, "owner.key"), key_file(check, store, "ann.key")
    line = read(owner)
    for data, part in ((b"", "is empty"), (line.replace(b"\n", b"\r\n"), "CRLF"), (b"\xef\xbb\xbf" + line, "byte order mark"),
                       (line[:-5], "isn't one line"), (line + line, "isn't one line"), (read(ann), "holder's key")):
        check.put(os.path.relpath(owner, check.folder), data)
        expect_told(check, f"an owner's key file {data[:9]!r}", front(check, store, "holder", "add", "ben"), 1, part)
    check.put(os.path.relpath(owner, check.folder), b"owner " + b"0" * 64 + b"\n")
    expect_told(check, "another's key", front(check, store, "holder", "add", "ben"), 1, "not one of")
    check.put(os.path.relpath(owner, check.folder), line)
    os.chmod(owner, 0o644)
    expect_told(check, "a key that others can read", front(check, store, "holder", "add", "ben"), 1, "chmod 600")
    os.chmod(owner, 0o600)
    expect_told(check, "no keys", front(check, store, "who", keys=os.path.join(check.folder, "nowhere")), 1, "no owner's key")
    done(check, "all is well again", front(check, store, "holder", "add", "ben"))


def statuses(check):
    """What each status of the program is told as, by programs that end with it."""
    store = fresh(check, "statuses.store")
    for status, part in ((1, "status 1"), (2, "status 2"), (5, "status 5"), (6, "the disk failed"), (7, "random"), (8, "random"),
                         (9, "not a store"), (10, "damaged"), (11, "not one of"), (12, "tampered"), (13, "memory"), (15, "no such holder"),
                         (17, "with upgrade"), (18, "already"), (0, "without an answer")):
        program = program_that(check, "ends", f"echo 'cryptree: said' >&2; read line; exit {status}")
        came = front(check, store, "holder", "add", "ann", program=program)
        expect_told(check, f"status {status}", came, 1, part)
    program = program_that(check, "ends", "kill -9 $$")
    expect_told(check, "a program that is killed", front(check, store, "holder", "add", "ann", program=program), 1, "signal 9")
    check.expect("these leave no key", os.path.exists(key_file(check, store, "ann.key")), False)
    done(check, "who lists with the real one", front(check, store, "who"))
    program = program_that(check, "prints", "echo 'folder /..'")
    done(check, "holder add", front(check, store, "holder", "add", "ann"))
    expect_told(check, "a program that prints otherwise", front(check, store, "who", program=program), 1, "never prints")
    limited = subprocess.run([FRONT, store, "holder", "add", "ben", "--keys", keys_of(check)], capture_output=True,
                             env=os.environ | {"CRYPTREE": program_that(check, "full", f'ulimit -f 1; exec "{check.program}" "$@"')},
                             preexec_fn=lambda: resource.setrlimit(resource.RLIMIT_CORE, (0, 0)))
    check.expect("a file that can't grow", limited.returncode, 1)
    done(check, "and then it can", front(check, store, "holder", "add", "ben"))


def lines_that_are_cut(check):
    """Wherever the front end is stopped within a line, what the program has of it is no line."""
    import sys
    sys.path.insert(0, os.path.dirname(FRONT))
    from folder_store import program

    class Pipe:
        pieces = []

        def write(self, piece):
            self.pieces.append(piece)
            return len(piece)

    for path in ("/p", "/pp", "/" + "n" * 64, ("/" + "n" * 64) * 64):
        for size in (0, 1, 2040, 2041, 2044, 2045, 2046, 5000, 100_000):
            session = object.__new__(program.Session)
            session.room, session.process = 1 << 26, type("Process", (), {"stdin": Pipe()})
            Pipe.pieces = []
            line = f"write {path} {'ab' * size}"
            session.send(line)
            sent = b"".join(Pipe.pieces)
            cuts = [len(b"".join(Pipe.pieces[:count])) for count in range(1, len(Pipe.pieces))] if size < 6000 else []
            check.expect(f"pieces of {size} bytes at a path of {len(path)}", (sent == line.encode() + b"\n", all(
                (cut - len(f"write {path} ")) % 2 == 1 and cut > len(f"write {path} ") for cut in cuts),
                all(len(piece) <= 4096 for piece in Pipe.pieces[1:])), (True, True, True))


class SmallDisk:
    """A disk of 1 MiB in a mount namespace of its own, which root may make; `front` is the front end that sees it, None where none is."""

    def __init__(self, check):
        self.place = os.path.join(check.folder, "disk")
        os.mkdir(self.place)
        made = 'mount -t tmpfs -o size=1m none "$0" && echo $$ && exec cat'
        words = ["unshare", "--mount", "--propagation", "private", "sh", "-c", made, self.place]
        try:
            self.process = subprocess.Popen(words, stdin=subprocess.PIPE, stdout=subprocess.PIPE, stderr=subprocess.DEVNULL)
        except OSError:
            self.front = None
            return
        self.number = self.process.stdout.readline().strip().decode()
        self.front = shell(check, "on_disk", f'exec nsenter -t {self.number} -m -- "{FRONT}" "$@"') if self.number else None

    def do(self, line):
        subprocess.run(["nsenter", "-t", self.number, "-m", "--", "sh", "-c", line], cwd=self.place, check=False, stderr=subprocess.DEVNULL)


def full_disk(check):
    """A disk that is full, under the store, under the key folder, and where something is to be made."""
    disk = SmallDisk(check)
    if disk.front is None:
        print("front_end: no disk of its own could be made, which takes root: a full disk isn't tried")
        return
    store, folder, away = os.path.join(disk.place, "store"), os.path.join(check.folder, "for_disk"), fresh(check, "away.store")
    os.mkdir(folder)
    for number in range(30):
        with open(os.path.join(folder, f"f{number:02}"), "wb") as file:
            file.write(os.urandom(50_000))

    def calls(*words, **how):
        return front(check, *words, with_front=disk.front, **how)

    done(check, "init on it", calls(store, "init"))
    expect_told(check, "put of too much", calls(store, "put", folder, "/f"), 1, "the disk that", "is full: make room")
    disk.do(f"cat /dev/zero >{disk.place}/filler")
    expect_told(check, "put again", calls(store, "put", folder, "/f"), 1, "is full: make room")
    expect_told(check, "init on a full disk", calls(store + "2", "init"), 1, "is full: make room")
    new = os.path.join(check.folder, "new.store2")
    expect_told(check, "keys on a full disk", calls(new, "init", keys=disk.place + "/keys"), 1, "is full")
    check.expect("no store without keys", os.path.exists(new), False)
    done(check, "put elsewhere", front(check, away, "put", folder, "/f"))
    expect_told(check, "backup to a full disk", calls(away, "backup", disk.place + "/copy"), 1, "is full: make room")
    expect_told(check, "get to a full disk", calls(away, "get", "/f", disk.place + "/out"), 1, "is full: make room")
    disk.do(f"rm {disk.place}/filler; rmdir {disk.place}/keys/* {disk.place}/keys; ls -A {disk.place} >{check.folder}/on_disk.list")
    check.expect("nothing half is left", read(os.path.join(check.folder, "on_disk.list")), b"store\n")
    for number in range(10, 30):
        os.remove(os.path.join(folder, f"f{number:02}"))
    done(check, "and then it can", calls(store, "put", folder, "/f"))
    done(check, "holder add then", calls(store, "holder", "add", "ann"))
    disk.process.stdin.close()
    disk.process.wait()


def words(check):
    """Words that don't say what to do."""
    store = os.path.join(check.folder, "good.store")
    for typed in ((), (store,), (store, "no-command"), (store, "grant", "ann"), (store, "holder", "drop", "ann"), (store, "who", "--no")):
        done_with = subprocess.run([FRONT, *typed], capture_output=True)
        check.expect(f"words {typed[1:]}", (done_with.returncode, done_with.stdout), (2, b""))
    check.expect("--help", subprocess.run([FRONT, "--help"], capture_output=True).returncode, 0)
