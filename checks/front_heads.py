"""Heads, asked of the front end: older copies and other histories that are put in a store's place for whoever reads, what two people
compare, and key folders of the version before."""
import glob
import hashlib
import json
import os
import sys

import store_reader
from front_calls import FRONT, expect_told, front, program_that, shell
from front_copies import shared_store
from front_keys import done, key_file, modes
from harness import read


def all_heads(check):
    for part in (read_by_a_holder, compared, hidden_from_holders, half_published, handed, put_back_meanwhile, replaced_meanwhile,
                 older_form):
        part(check)


class Reader:
    """Ann, who has her key in a file and a key folder of her own."""

    def __init__(self, check, store, name):
        self.check, self.store = check, store
        self.keys = os.path.join(check.folder, name + ".keys")
        self.key = check.put(name + ".key", read(key_file(check, store, "ann.key")))
        os.chmod(self.key, 0o600)

    def calls(self, *words):
        return front(self.check, self.store, *words, "--key", self.key, keys=self.keys)

    def kept(self):
        """The head that is kept, None where none is."""
        found = glob.glob(self.keys + "/*/last")
        return json.loads(read(found[0]))["head"] if found else None

    def present(self):
        return head_of(self.check, self.store)


def head_of(check, store):
    return check.call([store, "-", "head"])[1].split()[1].decode()


def last_batch(image):
    return [batch for batch, _ in store_reader.log(image, None)][-1]


def does(check, store, lines):
    """Has the program do these lines, without the front end."""
    owner = read(key_file(check, store, "owner.key"))
    check.expect(f"{lines}", check.call([store, "/dev/urandom", "run"], owner + lines)[0], 0)


def read_by_a_holder(check):
    """Who reads with a key in a file is told of an older copy, and of another history; a store that only went on is read."""
    store = shared_store(check, "heads.store")
    ann = Reader(check, store, "heads")
    check.expect("the first reading", done(check, "cat", ann.calls("cat", "/a/b")), b"hi")
    check.expect("its head is kept", (ann.kept(), modes(ann.keys)), (ann.present(), {0o700, 0o600}))
    older = read(store)
    does(check, store, b"write /a/b 686f\n")
    check.expect("a store that went on", done(check, "cat", ann.calls("cat", "/a/b")), b"ho")
    check.expect("the newer head is kept", ann.kept(), ann.present())
    done(check, "and by the owner", front(check, store, "ls"))
    newest, kept = read(store), ann.kept()
    branch = b"write /a/b 00\nwrite /a/b 01\n"
    for what, lines, told in (("an older copy", b"", "ends at batch"), ("another history", branch, "another history")):
        check.put("heads.store", older)
        does(check, store, lines)
        out = os.path.join(check.folder, "heads.out")
        for words in (("cat", "/a/b"), ("ls",), ("history", "/a/b"), ("get", "/a", out)):
            expect_told(check, f"{words[0]} of {what}", ann.calls(*words), 1, told, "nothing was read", "--accept")
        came = ann.calls("cat", "/a/b", "--accept")
        check.expect(f"{what} with --accept", (came[:2], b"read as it is" in came[2]), ((0, b"\1" if lines else b"hi"), True))
        check.expect("nothing is made of it, and what is kept stays", (os.path.exists(out), ann.kept()), (False, kept))
        for words in (("who",), ("backup", out), ("put", check.folder, "/x", "--dry-run"), ("holder", "add", "no")):
            expect_told(check, f"{words[0]} by the owner of {what}", front(check, store, *words), 1, "older copy", "--accept")
    check.put("heads.store", newest)
    check.expect("the newest again", done(check, "cat", ann.calls("cat", "/a/b")), b"ho")
    does(check, store, b"mkdir /more\n")
    os.chmod(ann.keys, 0o755)
    expect_told(check, "a key folder for all", ann.calls("cat", "/a/b"), 0, "can't be kept", "chmod 700")


def compared(check):
    """What `head` prints, tests and keeps."""
    store = shared_store(check, "told.store")
    ann = Reader(check, store, "told")
    first, image = head_of(check, store), read(store)
    check.expect("nothing kept", done(check, "head", ann.calls("head")), f"kept     -\npresent  {first}\n".encode())
    check.expect("and then it's kept", json.loads(done(check, "head", ann.calls("head", "--json"))), {"kept": first, "present": first})
    done(check, "grant", front(check, store, "grant", "ann", "/"))
    second = head_of(check, store)
    printed = done(check, "an older one that was told", ann.calls("head", first.upper()))
    due = f"kept     {first}\npresent  {second}\ntold     {first}, 2 batches before the present one\n"
    check.expect("what came since", printed.decode(), due)
    check.expect("the owner's", json.loads(done(check, "head", front(check, store, "head", second, "--json"))),
                 {"kept": second, "present": second, "told": second})
    for typed in ("", "7", second[:-1], second + "0", "0" + second, "-" + second):
        check.expect(f"head {typed!r}", ann.calls("head", "--", typed)[0], 2)
    other = second[:-1] + ("0" if second[-1] != "0" else "1")
    for typed, told in ((f"99:{'0' * 64}", b"ends at batch"), (other, b"another history"), (f"1:{'0' * 64}", b"another history")):
        came = ann.calls("head", typed)
        check.expect(f"head {typed}", (came[0], told in came[2], b"told     " in came[1]), (1, True, True))
    check.put("told.store", image)
    came = ann.calls("head")
    due = f"kept     {second}\npresent  {first}\n"
    check.expect("an older copy", (came[0], came[1].decode(), b"nothing was kept" in came[2]), (1, due, True))
    done(check, "kept with --accept", ann.calls("head", "--accept"))
    check.expect("is read from then on", (ann.kept(), done(check, "cat", ann.calls("cat", "/a/b"))), (first, b"hi"))
    expect_told(check, "by ann alone", front(check, store, "who"), 1, "older copy")


def hidden_from_holders(check):
    """A record without the owner's tag, which hides a file from holders: the owner's head tells of it, and the owner never keeps that
    head."""
    store = shared_store(check, "hidden.store")
    ann = Reader(check, store, "hidden")
    due = head_of(check, store)
    does(check, store, b"rm /a/b\n")
    longer = read(store)
    forged = bytearray(longer)
    forged[last_batch(longer).end - 2] ^= 1     # in the owner's tag
    check.put("hidden.store", bytes(forged))
    came = ann.calls("ls", "/a")
    check.expect("the file is hidden from ann", (came[0], came[1]), (0, b""))
    printed = done(check, "head that the owner told", ann.calls("head", due))
    check.expect("and ann sees batches that nobody vouched for", b"2 batches before the present one" in printed, True)
    kept = read(key_file(check, store, "last"))
    for words in (("ls",), ("head",), ("grant", "ann", "/")):
        came = front(check, store, *words)
        check.expect(f"the owner's {words[0]}", (came[0], b"tampered" in came[2]), (1, True))
    came = front(check, store, "ls", "--as", "ann")
    check.expect("the owner's reading as ann", came[0], 0)
    check.expect("the owner keeps no such head", read(key_file(check, store, "last")), kept)
    check.put("hidden.store", longer)
    done(check, "the right one goes on", front(check, store, "revoke", "ann", "/a"))
    expect_told(check, "and is another history for ann", ann.calls("ls"), 1, "another history")


def half_published(check):
    """A batch that a stop hit is no part of a head: a store that lost it isn't written."""
    store = shared_store(check, "half.store")
    before = read(store)
    does(check, store, b"mkdir /a/c\n")
    image = bytearray(read(store))
    last = last_batch(bytes(image))
    image[last.at + 13:last.at + 45] = bytes(32)
    check.put("half.store", bytes(image))
    done(check, "a reading", front(check, store, "ls"))
    kept = json.loads(read(key_file(check, store, "last")))
    check.expect("what is kept", (kept["head"], kept["end"]), (head_of(check, store), last.end))
    lost = bytearray(image)
    lost[last.at - 1] = 0
    check.put("half.store", bytes(lost))
    expect_told(check, "one that lost it", front(check, store, "grant", "ann", "/"), 1, "ends before", "--accept")
    check.put("half.store", before)
    expect_told(check, "an older copy", front(check, store, "grant", "ann", "/"), 1, "older copy")
    check.put("half.store", bytes(image))
    done(check, "one that has it", front(check, store, "grant", "ann", "/"))
    check.expect("it stands", done(check, "ls", front(check, store, "ls", "/a")), b"b\nc/\n")


def handed(check):
    """What writes hands the kept head to the program, once for a reading and once for a session, and keeps the one that is printed."""
    store, log = shared_store(check, "handed.store"), os.path.join(check.folder, "handed.log")
    logs = shell(check, "logs", f'echo "$3 $4" >>"{log}"; exec "{check.program}" "$@"')
    last = key_file(check, store, "last")
    put = ("put", folder_of(check), "/x")
    for words, calls in ((("revoke", "ann", "/a"), ["run"]), (put, ["list", "run"]), (("upgrade",), ["upgrade"]),
                         (("holder", "add", "ben"), ["run"]), (put, ["list"])):
        check.put("handed.log", b"")
        kept = json.loads(read(last))["head"]
        done(check, words[0], front(check, store, *words, program=logs))
        check.expect(f"{words[0]} hands it on", read(log).decode().splitlines(), [f"{call} {kept}" for call in calls])
        check.expect(f"{words[0]} keeps the next", json.loads(read(last))["head"], head_of(check, store))


def folder_of(check):
    """A folder of two files."""
    folder = os.path.join(check.folder, "handed.in")
    os.makedirs(folder, exist_ok=True)
    for name in "ab":
        check.put(f"handed.in/{name}", name.encode())
    os.utime(folder, (1, 1))
    for name in "ab":
        os.utime(os.path.join(folder, name), (1, 1))
    return folder


def put_back_meanwhile(check):
    """An older copy, or another history, that comes to stand there when the front end has begun: the program tells it, and nothing is
    written. Where it comes behind a session that was cut short, its head isn't kept."""
    store = shared_store(check, "swapped.store")
    older = check.put("swapped.older", read(store))
    does(check, store, b"write /a/c 00\ngrant 1 /\n")
    done(check, "ls", front(check, store, "ls"))
    newest, last = read(store), key_file(check, store, "last")
    kept = read(last)
    other = check.put("swapped.other", read(older))
    does(check, other, b"mkdir /b\nmkdir /c\nmkdir /d\n")
    for there, told in ((older, "ends at batch"), (other, "another history")):
        swaps = program_that(check, "swaps", f'cat "{there}" >"$1"; exec "{check.program}" "$@"')
        for words in (("revoke", "ann", "/a"), ("put", folder_of(check), "/x"), ("holder", "add", "ben"), ("upgrade",)):
            came = front(check, store, *words, program=swaps)
            expect_told(check, f"{words[0]}, {told}", came, 1, told, "nothing was written", "--accept")
            check.expect(f"{words[0]} leaves it", (read(store) == read(there), read(last)), (True, kept))
            check.put("swapped.store", newest)
    cut = f'[ "$3" = run ] || exec "{check.program}" "$@"; sed -u 2q | "{check.program}" "$@"; cat "{older}" >"$1"; exit 6'
    came = front(check, store, "put", folder_of(check), "/x", program=program_that(check, "cuts", cut))
    expect_told(check, "one behind a session that was cut short", came, 1, "ends at batch", "while it was written")
    check.expect("its head isn't kept", (json.loads(read(last))["head"], json.loads(read(last))["begun"]), (json.loads(kept)["head"], True))
    expect_told(check, "and it isn't written", front(check, store, "grant", "ann", "/a"), 1, "older copy")
    check.put("swapped.store", newest)
    check.put(os.path.relpath(last, check.folder), kept)
    answered_and_hidden(check, store)


def replaced_meanwhile(check):
    """Another file that comes to have the store's name, as a synced folder puts one there: the lock isn't its, so it isn't written, neither by
    the next session of a call nor by the next line to a bridge, and nothing is told as done that isn't in it."""
    store = shared_store(check, "replaced.store")
    older = read(store)
    does(check, store, b"mkdir /b\n")
    done(check, "ls", front(check, store, "ls"))
    last, place = key_file(check, store, "last"), check.put("replaced.new", b"")
    newest, kept = read(store), read(last)
    replaces = program_that(check, "replaces", f'''[ "$3" = run ] || exec "{check.program}" "$@"
"{check.program}" "$@"; status=$?; [ ! -s "{place}" ] || mv "{place}" "{store}"; exit $status''')
    small = check.put("small sessions", f"""#!{sys.executable}
import sys
sys.path.insert(0, {os.path.dirname(FRONT)!r})
from folder_store import limits
from folder_store.entry import main
limits.INPUT = 40_000
sys.exit(main())
""".encode())
    os.chmod(small, 0o700)
    for words, how in ((("grant", "ann", "/"), {}), (("put", large_folder(check), "/a", "--keep"), {"with_front": small})):
        check.put("replaced.new", older)
        came = front(check, store, *words, program=replaces, **how)
        expect_told(check, f"{words[0]} of a store that is replaced", came, 1, "isn't there", "put that back")
        check.expect(f"{words[0]} leaves what came there", read(store) == older, True)
        check.put("replaced.store", newest)
        check.put(os.path.relpath(last, check.folder), kept)


    same = program_that(check, "same", f'''"{check.program}" "$@" || exit; [ "$3" != run ] || {{ cp "{store}" "{place}"; mv "{place}" "{store}"; }}''')
    done(check, "a copy that is the same", front(check, store, "grant", "ann", "/", program=same))
    check.expect("the grant is in it", b"ann" in done(check, "who", front(check, store, "who", "/")), True)


def large_folder(check):
    """A folder of more than goes into one small session."""
    folder = os.path.join(check.folder, "replaced.in")
    os.makedirs(folder, exist_ok=True)
    for name in "abc":
        check.put(f"replaced.in/{name}", os.urandom(15_000))
    return folder


def answered_and_hidden(check, store):
    """A program that has answered a line and then finds the log changed, as who serves the disk can show it: the mark of the writing stays,
    so that the store of before isn't written where it's put back."""
    before = read(store)
    hides = f'case $3 in run) "{check.program}" "$@"; exit 12 ;; head) exit 12 ;; *) exec "{check.program}" "$@" ;; esac'
    came = front(check, store, "revoke", "ann", "/a", program=shell(check, "hides", hides))
    check.expect("a log that is changed behind an answer", (came[0], b"tampered" in came[2], len(read(store)) > len(before)),
                 (1, True, True))
    check.put("swapped.store", before)
    expect_told(check, "the store of before", front(check, store, "grant", "ann", "/a"), 1, "was killed", "--accept")


def older_form(check):
    """What the version before kept is tested as it was then, and taken over."""
    store = shared_store(check, "form.store")
    path, image = key_file(check, store, "last"), read(store)
    last = last_batch(image)

    def old(begun):
        hashed = hashlib.sha256(image[:last.at + 13] + bytes(32) + image[last.at + 45:last.end - 1]).hexdigest()
        text = json.dumps({"version": 1, "end": last.end, "slot": last.at + 13, "sha256": hashed, "begun": begun}) + "\n"
        check.put(os.path.relpath(path, check.folder), text.encode())

    for words, begun in ((("ls",), False), (("grant", "ann", "/"), False), (("cat", "/a/b"), True)):
        check.put("form.store", image)
        old(begun)
        check.expect(f"{words[0]} with it", front(check, store, *words)[::2], (0, b""))
        kept = json.loads(read(path))
        check.expect("it's taken over, unless a writing was killed", kept.get("head"), None if begun else head_of(check, store))
    expect_told(check, "after a kill", front(check, store, "grant", "ann", "/"), 1, "was killed", "--accept")
    for what, due in (("one that went on", 0), ("another", 1)):
        check.put("form.store", image)
        old(False)
        does(check, store, b"mkdir /x\n")
        if due:
            changed = bytearray(read(store))
            changed[last.end - 2] ^= 1
            check.put("form.store", bytes(changed))
        for words in (("ls",), ("grant", "ann", "/")):
            came = front(check, store, *words)
            check.expect(f"{words[0]} of {what}", (came[0], b"older copy" in came[2]), (due, bool(due)))
    check.put(os.path.relpath(path, check.folder), b'{"version": 2, "head": "7", "end": 100, "begun": false}')
    expect_told(check, "what isn't one", front(check, store, "ls"), 1, "isn't what this front end writes")
