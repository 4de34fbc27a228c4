"""A `run` or a `serve` that is fed one line after another: each is sent once all that the one before is answered is there."""
import os
import random
import select
import subprocess
import time

LIMIT = 120  # seconds in which a reply is there, on a busy machine too
REFUSED = b"rm /"  # a line that is always refused, and what it is answered
REPLY = b"refused is-root\n"


class Fed:
    """The program at work on a store, whose first line is the owner's."""

    def __init__(self, words, owner):
        self.child = subprocess.Popen(words, stdin=subprocess.PIPE, stdout=subprocess.PIPE, stderr=subprocess.PIPE)
        self.send(owner)

    def send(self, typed):
        try:
            self.child.stdin.write(typed)
            self.child.stdin.flush()
        except BrokenPipeError:
            pass  # it ended: there is no reply

    def say(self, line):
        """What a line is answered, as far as it came in time. How many replies a replacement has isn't told, so behind it comes a line that is
        always refused."""
        is_more = line.startswith(b"replace ")
        self.send(line + b"\n" + (REFUSED + b"\n") * is_more)
        found, end = b"", time.monotonic() + LIMIT
        while not is_whole(line, found) and select.select([self.child.stdout], [], [], max(0, end - time.monotonic()))[0]:
            piece = os.read(self.child.stdout.fileno(), 1 << 16)
            if not piece:
                break
            found += piece
        return found.removesuffix(REPLY) if is_more else found

    def replies(self, line):
        return self.say(line).splitlines() or [b""]

    def end(self):
        """Its status, what it printed that no line was answered, and what it said."""
        printed, said = self.child.communicate()
        return self.child.returncode, printed, said


def is_whole(line, found):
    """Whether that is all that a line is answered."""
    if line.startswith(b"replace "):
        return found == REPLY or found.endswith(b"\n" + REPLY)
    if line.startswith(b"show "):
        return found == b"end\n" or found.endswith(b"\nend\n") or found.startswith(b"refused ") and found.endswith(b"\n")
    return found.endswith(b"\n")


def parted(lines, printed):
    """What each line was answered of all that was printed, where none is a replacement."""
    rest = printed.splitlines(True)
    for line in lines:
        found = b""
        while rest and not is_whole(line, found):
            found += rest.pop(0)
        yield found


def run(check, store, owner, seed, command="run"):
    """One over a store of this check, with random bytes of a seed."""
    source = check.put(f"random of {os.path.basename(store)}", random.Random(seed).randbytes(1 << 16))
    return Fed([check.program, store, source, command], owner)


def serve(check, store, owner, seed):
    return run(check, store, owner, seed, "serve")


def random_line(draw, plain):
    """A line of the owner's, more often than not one that is done."""
    folders, name = [path for path, data in plain.nodes.items() if data is None], draw.choice((b"a", b"b", b"c"))
    folder, node, holder = draw.choice(folders), draw.choice(list(plain.nodes)), b"%d " % draw.randint(1, plain.holders)
    if draw.random() < 0.05:
        return b"replace " + holder.rstrip()
    new = folder.rstrip(b"/") + b"/" + name
    return draw.choice((
        b"mkdir " + new, b"mkdir " + new, b"write " + new + b" %02x" % draw.randrange(256), b"write " + node + b" 00", b"rm " + node,
        b"rename " + node + b" " + name, b"move " + node + b" " + folder, b"move " + node + b" " + folder, b"grant " + holder + folder,
        b"grant " + holder + node, b"revoke " + holder + node))
