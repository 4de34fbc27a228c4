"""`backup FILE`, `restore FILE` and `renew NEW`: a copy of a store to read, the same put in a store's place, and a new store of what stands
in one that is full or is such a copy."""
import os
import shutil
import tempfile

from folder_store import places, private, room
from folder_store import store as stores
from folder_store.entry import opened
from folder_store.faults import Fault, warn
from folder_store.names import real_path, shown
from folder_store.progress import Progress, followed
from folder_store.sharing import made_now, tell
from folder_store.who import seen_by, topmost
from folder_store.store import Store


def add_commands(add):
    words = add("renew", renew, "makes a new store of what stands, with new keys for the same holders and the same grants")
    words.add_argument("new", metavar="NEW", help="the new store's file, which is missing")
    words = add("backup", backup, "copies the store, to be read or renewed, and never to be written")
    words.add_argument("file", metavar="FILE", help="the copy's file, which is missing")
    words = add("restore", restore, "makes STORE, which is missing, of a backup; it can be read and renewed, and isn't written")
    words.add_argument("file", metavar="FILE", help="the backup; where the key folder is gone, name the owner's key file with --key")


def backup(words):
    """The copy is of one moment: nobody writes meanwhile."""
    with opened(words, writes=False) as store:
        copy(store, words.file)
    tell(words, f"copied {words.store} to {words.file}: to go on with the copy some day put it in a store's place with restore",
         store=os.path.abspath(words.store), backup=os.path.abspath(words.file))


def copy(store, path):
    """A copy of a store that this has locked. It has its name when it's whole, and is never written over anything."""
    place = os.path.abspath(path)
    with tempfile.TemporaryDirectory(prefix=".cryptree-", dir=os.path.dirname(place)) as folder:
        whole = os.path.join(folder, "store")
        with (open(store.handle, "rb", closefd=False) as source, open(whole, "xb") as target,
              Progress(f"copying {shown(store.path)}")):
            source.seek(0)
            shutil.copyfileobj(source, target, 1 << 20)
            target.flush()
            os.fsync(target.fileno())
        try:
            private.settle(whole, place)
        except FileExistsError:
            raise Fault(f"{path} stands there already, and is never written over: name another file") from None


def restore(words):
    """The mark that it's a copy stands before the copy does, so that it's never written, wherever this is stopped."""
    if os.path.lexists(words.store):
        raise Fault(f"{words.store} stands there already: move it away, or name a store that isn't there")
    with Store.open(words.file, words.keys, False, not words.no_wait, older=stores.COPY) as store:
        key = store.key(None, words.key)
        store.listing(key)
        if not os.path.exists(store.keys.file("owner.key")):
            stores.take_in(words.file, words.keys, key, not words.no_wait, words.accept, is_copy=True)
        places.keep(words.store, store.keys, places.RESTORED)
        try:
            copy(store, words.store)
        except BaseException:
            places.drop(words.store, store.keys, places.RESTORED)
            raise
    tell(words, f"made {words.store} of {words.file}; it can be read, and isn't written: make a new store of it with renew",
         store=os.path.abspath(words.store), backup=os.path.abspath(words.file), keys=store.keys.path)


def renew(words):
    """Nothing is named NEW before all of it stands and is the same. The old store and its keys stay as they are."""
    half = words.new + ".half"
    if os.path.lexists(words.new):
        raise Fault(f"{words.new} stands there already: name a new file for the new store")
    if os.path.lexists(half):
        raise Fault(f"{half} is there: a renew that was stopped left it, or one makes it now; take it away where none does")
    with opened(words, writes=False, older=stores.TOLD) as old:
        listing = old.listing(old.owner)
        keys = stores.make(half, words.keys)
        with Store.open(half, words.keys, True, True) as new:
            new.run(followed(lines(listing), f"writing {shown(half)}", len(listing)))
            lost = share(old, new, {line.path for line in listing})
            if new.listing(new.owner) != listing or not all(shows_what_is_granted(new, name) for name in new.holders.names):
                raise Fault(f"{half} doesn't hold what {words.store} does: take it away, and tell its makers; the old store is as it was")
            new.see_that_it_has_its_name()
            end = new.taken_end()
    settle(half, words.new, keys)
    room.tell_of_renewed(words.new, end)
    tell(words, f"made {words.new} of {words.store}, with new keys in {keys.path}: hand them over, and then take the old store away",
         store=os.path.abspath(words.new), keys=keys.path)
    return 1 if lost else 0


def shows_what_is_granted(store, name):
    return seen_by(store, name) == topmost(store.holders.names[name][1])


def settle(half, path, keys):
    """Gives the new store its name."""
    try:
        private.settle(half, os.path.abspath(path))
    except FileExistsError:
        raise Fault(f"{path} has come to stand there meanwhile: it's left as it is, and the new store is {half}") from None
    places.keep(path, keys)
    places.drop(half, keys)


def lines(listing):
    """What makes an empty store hold this."""
    for kind, path, data in listing:
        if path != "/":
            yield f"mkdir {path}" if kind == "folder" else f"write {path} {data.hex()}"


def share(old, new, paths):
    """Makes the same holders with the same grants, and gives those of the grants whose folder or file the old store doesn't have."""
    lost = []
    for name, (_, granted) in sorted(old.holders.names.items(), key=lambda entry: entry[1][0]):
        number = made_now(new, new.keys.file(name + ".key"))
        record = new.holders
        record.add(name, number)
        new.run(f"grant {number} {path}" for path in sorted(granted & paths))
        lost += [(name, path) for path in sorted(granted - paths)]
    for name, path in lost:
        warn(f"the grant of {name} on {real_path(path)} is left out, since nothing is there")
    return lost
