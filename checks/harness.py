"""What checks of the real program share: calls of it, many at a time, and what came otherwise than it was due."""
import concurrent.futures
import os
import shutil
import subprocess
import sys
import tempfile

import store_reader
from store_reader import Bundle, bundle_line
from store_writer import Writer

MADE_VERSION = 2  # of the stores that the program makes, and that `run` writes
READ_VERSIONS = (1, 2)  # of those that it reads; `upgrade` makes one of version 2 of one of version 1
NEEDS_UPGRADE = 17, b"", b"cryptree: needs upgrade\n"  # what `run` answers over version 1
ALREADY_NEW = 18, b"", b"cryptree: already version 2\n"  # what `upgrade` answers over version 2


class Check:
    """The program, a folder for files, and what was asked so far."""

    def __init__(self, program, folder):
        self.program, self.folder = os.path.abspath(program), folder
        self.pool = concurrent.futures.ThreadPoolExecutor(os.cpu_count())
        self.count, self.wrong, self.about = 0, [], ""

    def each_version(self):
        """Each version that the program reads, told before what is asked meanwhile."""
        for version in READ_VERSIONS:
            self.about = f"version {version}, "
            yield version
        self.about = ""

    def put(self, name, data):
        """The path of a file of this name with these bytes."""
        path = os.path.join(self.folder, name)
        with open(path, "wb") as file:
            file.write(data)
        return path

    def make(self, name, random, version=MADE_VERSION):
        """The path of a store of this version, of these random bytes, and its owner's line: made by the program, or where it makes no such
        store by store_writer.py."""
        if version == MADE_VERSION:
            store = self.put(name, b"")
            return store, self.call([store, self.put(f"random of {name}", random), "make"])[1]
        writer = Writer(random[:192], version)
        return self.put(name, writer.image), bundle_line(Bundle(0, writer.owner))

    def call(self, words, typed=b"", under=None):
        """How the program ends with these words and this input: its status, what it prints and what it says. One of faults.py may be what
        it runs under."""
        done = subprocess.run([self.program, *words], input=typed, capture_output=True, preexec_fn=under)
        return done.returncode, done.stdout, done.stderr

    def show(self, store, bundle, path=None, under=None):
        """What `list` answers to this key, or `open` of this path, over the store's file."""
        return self.call([store, "-", "list"] if path is None else [store, "-", "open", path], bundle_line(bundle), under)

    def audit(self, store, bundle):
        """What `audit` answers to this key over the store's file."""
        return self.call([store, "-", "audit"], bundle_line(bundle))

    def run(self, image, typed, random, *command):
        """The answer of `run`, or of these words, to this input over a store of these bytes, with these random ones, and what it leaves."""
        store = self.put("store", image)
        return self.call([store, self.put("random", random), *(command or ("run",))], typed), read(store)

    def write(self, image, owner, lines, random):
        """How these lines end over a store of either version, each of which is done: as `run` answers them, or where it writes no store of
        this version, as store_writer.py does. With it what they leave."""
        if store_reader.version(image, owner) == MADE_VERSION:
            return self.run(image, bundle_line(Bundle(0, owner)) + lines, random)
        writer = Writer.over(image, owner)
        replies = writer.session(random, lines.decode().splitlines())
        return (0, "".join(reply + "\n" for reply in replies).encode(), b""), writer.image

    def expect(self, what, came, due):
        self.expect_one_of(what, came, [due])

    def expect_one_of(self, what, came, dues):
        self.count += 1
        if came not in dues:
            self.wrong.append(f"{self.about}{str(what)[:200]}: due {' or '.join(map(str, dues))[:200]}, came {str(came)[:200]}")

    def expect_all(self, cases):
        """Cases of what is asked, a function that asks it, and the answer due; they are asked beside one another."""
        self.expect_all_of((what, asks, [due]) for what, asks, due in cases)

    def expect_all_of(self, cases):
        """The same where several answers are due, of which any one may come."""
        cases = list(cases)
        for (what, _, dues), came in zip(cases, self.pool.map(lambda case: case[1](), cases)):
            self.expect_one_of(what, came, dues)


def is_left(path, due):
    """Whether these bytes are left in a file, which is taken away."""
    left = read(path)
    os.remove(path)
    return "left as due" if left == due else "left otherwise"


def read(path):
    with open(path, "rb") as file:
        return file.read()


def have(tool):
    """Sees to it that there is a tool of this name, installed by apt-get where it is missing and may be, or ends the check."""
    for words in (["update"], ["install", "-y", "--no-install-recommends", tool]):
        if not shutil.which(tool) and shutil.which("apt-get"):
            subprocess.run(["apt-get", "-qq", *words], stdin=subprocess.DEVNULL, stdout=subprocess.DEVNULL, stderr=subprocess.DEVNULL)
    if not shutil.which(tool):
        sys.exit(f"{os.path.basename(sys.argv[0])}: {tool} is needed, which isn't here and couldn't be installed by apt-get")


def main(doc, part):
    """Runs a check of the program that the one word names, tells what was wrong, and ends with 0 where nothing was."""
    if len(sys.argv) != 2:
        sys.exit(doc)
    name = os.path.basename(sys.argv[0])
    with tempfile.TemporaryDirectory() as folder:
        check = Check(sys.argv[1], folder)
        part(check)
    for text in check.wrong:
        print(f"{name}: {text}")
    print(f"{name}: {check.count - len(check.wrong)} of {check.count} answers are those due")
    sys.exit(1 if check.wrong else 0)
