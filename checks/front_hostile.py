"""Listings and indexes that no front end wrote: tools/cryptree-folder makes nothing of them, and tells why.

Each goes through the modules that read it, and some of each kind through the whole front end.
"""
import argparse
import contextlib
import io
import json
import os
import sys

import harness
from front_calls import FRONT, front, program_that

sys.path.insert(0, os.path.dirname(FRONT))

from folder_store import get, listed, store as stores     # noqa: E402 (the package stands beside the front end)
from folder_store.faults import Fault                     # noqa: E402

LISTINGS = [  # what no `list` prints
    b"file /../x 00", b"file /a/../../x 00", b"folder /..", b"file a 00", b"file //x 00", b"file /. 00", b"file /x 0", b"link /x /y", b"",
    b"file / 00", b"folder /a\nfolder /a", b"folder /b\nfolder /a", b"file /a 00\nfile /a/b 00", b"file /a/b 00", b"folder /a/\n",
    b"file /x 00\nfile /x 01", b"file /--keep/x 00", b"file /" + b"x" * 65 + b" 00",
]
NAMES = [  # listed as the program lists them, and no names of the rule
    b"file /-.2f. 00", b"file /-.2e..-.2e. 00", b"file /-.2e2e. 00", b"file /-.00. 00", b"file /-.61. 00", b"file /-.C3. 00",
    b"folder /-.2e.", b"folder /-.2e2e.\nfile /-.2e2e./x 00", b"folder /a-.2f..-.2f.b", b"file /x-.parts 00",
    b"file /x 00\nfolder /x-.parts\nfile /x-.parts/0000 01",
    b"folder /x-.parts\nfile /x-.parts/0001 00", b"folder /x-.parts\nfolder /x-.parts/0000", b"folder /-.more\nfile /-.more/x 00",
    b"folder /x-.half\nfile /x-.half/0000 00\nfolder /x-.parts\nfile /x-.parts/0000 00", b"file /-. 00", b"file /x-.index 00",
]
STAMP = b"644 1730000000123456789"
INDEXES = [  # the lines of an index, what is told
    (b"link " + STAMP + b" -.2e2e. x", b"isn't written"), (b"link " + STAMP + b" a-.2f.b x", b"no name"),
    (b"file " + STAMP + b" ..", b"no name"),
    (b"link " + STAMP + b" out -.2f.etc-.2f.passwd", b"out of the folder"), (b"link " + STAMP + b" out ..", b"out of the folder"),
    (b"link " + STAMP + b" out a-.2f...-.2f...-.2f.x", b"out of the folder"),
    (b"link " + STAMP + b" out sub-.2f...-.2f.x", b"out of the folder"),
    (b"link " + STAMP + b" out x\nlink " + STAMP + b" out y", b"two lines"),
    (b"file " + STAMP + b" f\nfile " + STAMP + b" f", b"two lines"),
    (b"link " + STAMP + b" ../out x", b"a line that"), (b"file 4755 1730000000123456789 f", b"a line that"),
    (b"file " + STAMP, b"a line that"), (b"\xff", b"a line that"), (b"", b"a line that"),
    (b"link " + STAMP + b" out -.00.", b"leads nowhere"),
    (b"file 644 99999999999999999999 f", b"a line that"),
]


def nothing_of(check, what, store, out, says, program=None):
    """That get ends with status 1, says so, and makes nothing."""
    before = sorted(os.listdir(check.folder))
    status, printed, said = front(check, store, "get", "/", out, program=program)
    is_same = sorted(os.listdir(check.folder)) == before
    check.expect(f"hostile {what}", (status, printed, says in said or said, is_same), (1, b"", True, True))


def told_of(lines):
    """What is told of a listing of these lines, which `get` would make a folder of."""
    try:
        found = [stores.read_line(line, stores.LISTED, stores.Line) for line in lines]
        with contextlib.redirect_stderr(io.StringIO()):
            get.check_tree(listed.node_at(found, "/"), argparse.Namespace(path="/", links_outside=False))
    except Fault as fault:
        return str(fault)
    return "a folder would be made"


def listings(check, store, out):
    check.put("hostile", b"")
    program = program_that(check, "hostile.program", f'cat >/dev/null; cat {os.path.join(check.folder, "hostile")}')
    cases = [(text, "nothing") for text in LISTINGS + NAMES] + [(b"file /x-.y 00", "was taken"), (b"folder /x-.half", "a put was stopped")]
    for number, (text, says) in enumerate(cases):
        lines = (b"" if text.startswith(b"file / ") else b"folder /\n") + text
        told = told_of(lines.split(b"\n"))
        check.expect(f"told of {text}", says in told or told, True)
        if number % 6 == 0 or says != "nothing":
            check.put("hostile", lines + b"\n")
            nothing_of(check, text, store, out, b"cryptree-folder: ", program)


def indexes(check, store, out, key):
    def write(path, data):
        came = check.call([store, "/dev/urandom", "run"], harness.read(key) + b"write %s %s\n" % (path, data.hex().encode()))
        check.expect(f"write {path}", came, (0, b"ok\n", b""))

    write(b"/f", b"\0")
    cases = [(b"cryptree-folder index 1\n" + lines + b"\n", says) for lines, says in INDEXES] + [
        (b"cryptree-folder index 2\nnew\n", b"later version"), (b"", b"isn't one"), (b"cryptree-folder index 1", b"isn't one")]
    for number, (index, says) in enumerate(cases):
        told = told_of([b"folder /", b"file /-.index " + index.hex().encode(), b"file /f 00"])
        check.expect(f"told of {index}", says.decode() in told or told, True)
        if number % 5 == 0:
            write(b"/-.index", index)
            nothing_of(check, index, store, out, says)
    write(b"/-.index", b"cryptree-folder index 1\nfile %s none\nlink %s f x\nlink %s out -.2f.etc\n" % (STAMP, STAMP, STAMP))
    status, _, said = front(check, store, "get", "/", out, "--links-outside")
    came = status, said, os.path.islink(out + "/out"), os.path.isfile(out + "/f"), os.path.islink(out + "/f")
    check.expect("links outside that were asked for", came, (0, b"", True, True, False))


def all_hostile(check):
    store, out = (os.path.join(check.folder, "hostile." + part) for part in ("store", "out"))
    status, printed, _ = front(check, store, "init", "--json")
    check.expect("init", status, 0)
    listings(check, store, out)
    indexes(check, store, out, os.path.join(json.loads(printed)["keys"], "owner.key"))


if __name__ == "__main__":
    harness.main(__doc__, all_hostile)
