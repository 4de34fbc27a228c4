"""Files that nobody else may read: made at once, whole, and never over one that stands there."""
import os
import stat
import tempfile

from folder_store.faults import BadKey, Fault


def make_folder(path):
    """A folder of this path that only its owner gets into, with those above it."""
    os.makedirs(path, mode=0o700, exist_ok=True)
    check_folder(path)


def check_folder(path):
    """Refuses a folder that others get into."""
    mode = os.stat(path).st_mode
    if not stat.S_ISDIR(mode):
        raise Fault(f"{path} is no folder, so no keys can be kept in it: name another with --keys")
    if mode & 0o077:
        raise BadKey(f"others can get into the key folder {path}: chmod 700 {path}")


def sync_folder(path):
    """Sees to it that the names in a folder outlast a power cut, where its disk can do that."""
    try:
        handle = os.open(path, os.O_RDONLY | os.O_DIRECTORY)
    except OSError:
        return
    try:
        os.fsync(handle)
    except OSError:
        pass
    finally:
        os.close(handle)


def settle(temporary, path):
    """Gives a finished file its name, where nothing has that name (FileExistsError)."""
    try:
        os.link(temporary, path)
    except FileExistsError:
        raise
    except OSError:     # a disk without hard links: the name is taken first
        os.close(os.open(path, os.O_WRONLY | os.O_CREAT | os.O_EXCL, 0o600))
        os.replace(temporary, path)
    else:
        os.unlink(temporary)
    sync_folder(os.path.dirname(path))


class NewFile:
    """A private file in the making: `put` writes it whole and gives it its name. Where that is never called nothing is left. So whoever
    will have something to keep can try beforehand whether it can be kept."""

    def __init__(self, path):
        self.path = os.path.abspath(path)
        if os.path.lexists(self.path):
            raise Fault(f"{path} stands there already, and is never written over: name another file, or take it away")
        self.handle, self.temporary = tempfile.mkstemp(prefix=".cryptree-", dir=os.path.dirname(self.path))

    def __enter__(self):
        return self

    def put(self, text):
        os.write(self.handle, text.encode())
        os.fsync(self.handle)
        try:
            settle(self.temporary, self.path)
        except FileExistsError:
            kept, self.temporary = self.temporary, None
            raise Fault(f"{self.path} has come to stand there meanwhile: what was to go into it is in {kept}") from None
        self.temporary = None

    def __exit__(self, *_):
        os.close(self.handle)
        if self.temporary:
            os.unlink(self.temporary)


def replace(path, text):
    """Another text for a file of one's own, so that a stop leaves the old one or the new one."""
    folder = os.path.dirname(path)
    handle, temporary = tempfile.mkstemp(prefix=".cryptree-", dir=folder)
    try:
        with open(handle, "w", encoding="utf-8") as file:
            file.write(text)
            file.flush()
            os.fsync(file.fileno())
        os.replace(temporary, path)
    except BaseException:
        os.unlink(temporary)
        raise
    sync_folder(folder)


def synced(path):
    """A new file, open to be written, in which each piece outlasts a power cut once it's written, whoever writes it."""
    file = open(os.open(path, os.O_WRONLY | os.O_CREAT | os.O_EXCL | os.O_SYNC, 0o600), "wb", buffering=0)
    sync_folder(os.path.dirname(path))
    return file


def read(path):
    """The bytes of a file that only its owner can read."""
    with open(path, "rb") as file:
        if os.fstat(file.fileno()).st_mode & 0o077:
            raise BadKey(f"others can read {path}: chmod 600 {path}, and see to it that nobody has taken the key")
        return file.read(1 << 24)
