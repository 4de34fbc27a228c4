"""`get /path FOLDER`: makes a folder of real files of what a key opens."""
import ctypes
import errno
import glob
import json
import os
import shutil
import stat
import tempfile

from folder_store.entry import opened
from folder_store.faults import Fault, Hostile, warn
from folder_store.listed import node_at
from folder_store.names import shown
from folder_store.progress import followed
from folder_store.tree import FILE, FOLDER, LINK, Node, walk

AT_FDCWD, RENAME_EXCHANGE = -100, 2


def add_commands(add) -> None:
    words = add("get", get, "makes a folder of real files of what a key opens; it is made beside, and put in place when all of it stands")
    words.add_argument("path", metavar="/path", help="a folder in the store")
    words.add_argument("folder", metavar="FOLDER", 
                       help="is missing, or empty; others can't read it, and in it modes and times are as `put` took them")
    words.add_argument("--replace", action="store_true", help="takes the place of a FOLDER that has something in it, which is removed")
    words.add_argument("--links-outside", action="store_true", help="make links that lead out of FOLDER, too")


def get(words) -> None:
    place = free_place(words.folder, words.replace)
    with opened(words, writes=False) as store:
        see_that_it_may_go(place, [words.store, store.keys.above, os.path.expanduser("~"), os.getcwd()])
        tree = node_at(store.listing(store.key(words.holder, words.key)), words.path)
    check_tree(tree, words)
    above, name = os.path.split(place)
    new = tempfile.mkdtemp(prefix=f".{name}.cryptree-", dir=above)
    try:
        fill(tree, os.fsencode(new))
        put_in_place(new, place)
    finally:
        remove(new)
    files = sum(node.kind == FILE for _, node in walk(tree))
    text = f"got {files} file{'s' * (files != 1)} into {shown(words.folder)}"
    print(json.dumps({"folder": place, "files": files}) if words.json else text)


def free_place(folder: str, replace: bool) -> str:
    """The whole path of the folder that is to be made; a Fault where something stands there that isn't to go."""
    place = os.path.abspath(folder)
    above, name = os.path.split(place)
    if not name or not os.path.isdir(above):
        raise Fault(f"{shown(above)} is no folder: make it first")
    for left in glob.glob(os.path.join(glob.escape(above), glob.escape(f".{name}.cryptree-") + "*")):
        warn(f"{shown(left)} is there: a get that was stopped left it, or one makes it now; remove it where none does")
    if os.path.islink(place) or (os.path.lexists(place) and not os.path.isdir(place)):
        raise Fault(f"{shown(folder)} is a link or a file: name a folder that isn't there yet")
    if os.path.isdir(place) and os.listdir(place) and not replace:
        raise Fault(f"{shown(folder)} has something in it, so nothing was done: name a new folder, or type --replace to have it removed")
    return place


def see_that_it_may_go(place: str, needed: list[str]) -> None:
    """A Fault where what stands at the place has one of these in it, as a home folder has."""
    for other in filter(os.path.exists, needed):
        if os.path.isdir(place) and os.path.commonpath([os.path.realpath(other), os.path.realpath(place)]) == os.path.realpath(place):
            raise Fault(f"{shown(place)} has {shown(other)} in it, so it isn't replaced: name another folder")


def check_tree(tree: Node, words) -> None:
    """A Fault where a folder can't be made of all of it, before anything is made."""
    if tree.kind != FOLDER:
        raise Fault(f"{shown(words.path)} is a {tree.kind}: get takes a folder, `cat` prints a file")
    half = [path for path, node in walk(tree) if node.half]
    outside = [path for path, node in walk(tree) if node.kind == LINK and leads_outside(node.data, len(path) - 1)]
    for path in half:
        warn(f"{shown(b'/'.join(path)) or shown(words.path)} is half written")
    if half:
        raise Fault("a put was stopped, so nothing was made: let the owner put that folder once more, which finishes it")
    if outside and not words.links_outside:
        for path in outside:
            warn(f"{shown(b'/'.join(path))} is a link that leads outside")
        raise Hostile(f"{len(outside)} link{'s' * (len(outside) != 1)} would lead out of the folder, so nothing was made: "
                      "type --links-outside to make them all the same")


def leads_outside(target: bytes, depth: int) -> bool:
    """Whether a link in so many folders may lead out of the outermost. One that goes up after it went down is taken to do so."""
    steps = [step for step in target.split(b"/") if step not in (b"", b".")]
    upwards = steps.count(b"..")
    return target.startswith(b"/") or upwards > depth or b".." in steps[upwards:]


def fill(tree: Node, place: bytes) -> None:
    """Makes all that is in a folder: files into folders that only this user reads, then the links, then the modes and times of folders."""
    found = [(os.path.join(place, *path), node) for path, node in walk(tree)][1:]
    for path, node in followed(found, "making files", len(found)):
        if node.kind == FOLDER:
            os.mkdir(path, 0o700)
        elif node.kind == FILE:
            write_file(path, node)
    for path, node in found:
        if node.kind == LINK:
            os.symlink(node.data, path)
            os.utime(path, ns=(node.time, node.time), follow_symlinks=False)
    for path, node in reversed(found):
        if node.kind == FOLDER and node.time is not None:
            os.chmod(path, node.mode)
            os.utime(path, ns=(node.time, node.time))
    if tree.time is not None:
        os.utime(place, ns=(tree.time, tree.time))


def write_file(path: bytes, node: Node) -> None:
    handle = os.open(path, os.O_WRONLY | os.O_CREAT | os.O_EXCL | os.O_NOFOLLOW | os.O_CLOEXEC, 0o600)
    with open(handle, "wb") as file:
        file.write(node.data)
        file.flush()
        if node.time is not None:
            os.fchmod(handle, node.mode)
            os.utime(handle, ns=(node.time, node.time))


def put_in_place(new: str, place: str) -> None:
    """In one step, where the system can exchange two folders; elsewhere in two, with the old one beside between them."""
    try:
        os.rename(new, place)
    except OSError as fault:
        if fault.errno not in (errno.ENOTEMPTY, errno.EEXIST):
            raise
        os.chmod(new, stat.S_IMODE(os.stat(place).st_mode))
        if not exchange(new, place):
            os.rename(place, new + ".old")
            os.rename(new, place)
            os.rename(new + ".old", new)


def exchange(one: str, other: str) -> bool:
    call = getattr(ctypes.CDLL(None), "renameat2", None)
    return bool(call) and call(AT_FDCWD, os.fsencode(one), AT_FDCWD, os.fsencode(other), RENAME_EXCHANGE) == 0


def remove(place: str) -> None:
    """Takes a folder away, with folders in it that can't be written; where nothing is, nothing is done."""
    if not os.path.lexists(place):
        return
    os.chmod(place, 0o700)
    for above, folders, _ in os.walk(place):
        for inside in (os.path.join(above, name) for name in folders):
            if not os.path.islink(inside):
                os.chmod(inside, 0o700)
    shutil.rmtree(place)
