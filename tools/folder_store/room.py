"""How much room a store has, and how much of it is kept back, so that it can revoke as long as it's written by this front end."""
import collections

from folder_store import last, limits
from folder_store.faults import Full, warn

LIMIT = limits.STORE
WARNED_AT = 80          # in 100
COMMAND = 2048          # bytes, more than a command is likely to take beside a file's bytes and the links of a departure
OWN_LINKS = 4           # of a folder whose keys are renewed, beside those into what is in it and those from holders
GRANT, REVOCATION, LINK = 225, 421, 98      # bytes of one on what has others, of one taken back, and for each that stays (docs/FORMAT.md)
BESIDE = 1 << 20        # bytes kept back beside revocations, for grants that were made without this front end


def grants_on(store):
    """How many grants stand on each folder and file, by the record of them."""
    return collections.Counter(path for _, granted in store.holders.names.values() for path in granted)


def of_steps(steps, inside, grants):
    """More bytes than these steps of `put` are likely to take, where so many names and grants stand in and on each folder, by its path. What
    is removed leaves the keys that led to it renewed, with a link for each grant on a folder above and for all that stays in these."""
    inside, grants, needed = collections.Counter(inside), collections.Counter(grants), 0
    for word, path, *fields in steps:
        needed += COMMAND + sum(len(field) for field in fields if isinstance(field, bytes))
        if word == "rm":
            needed += LINK * sum(inside[folder] + grants[folder] + OWN_LINKS for folder in above(path))
            inside[path.rpartition("/")[0]] -= 1
        elif word == "rename":
            for counts in (inside, grants):
                shift(counts, path, f"{path.rpartition('/')[0]}/{fields[0]}")
        else:
            inside[path.rpartition("/")[0]] += 1
    return needed


def above(path):
    """The paths of the folders that a path is in; the root's is empty."""
    while path:
        path = path.rpartition("/")[0]
        yield path


def shift(counts, old, new):
    for path in [path for path in counts if path == old or path.startswith(old + "/")]:
        counts[new + path[len(old):]] += counts.pop(path)


def kept_back(store):
    """What revoking every grant takes, one after another."""
    on_folders = grants_on(store)
    return BESIDE + sum(REVOCATION * count + LINK * count * (count - 1) // 2 for count in on_folders.values())


def of_replacement(store, granted):
    """More bytes than it takes to replace a holder who is granted these: each grant is given to the new one, and taken back from the old."""
    counts = grants_on(store)
    return COMMAND + sum(GRANT + REVOCATION + LINK * counts[path] for path in granted)


def left_in(store):
    """How many bytes are left beside what revocations take; less than none where these may not find room."""
    return LIMIT - kept_back(store) - last.end_of_log(store.handle)


def see_to(store, needed):
    """A Fault where so many bytes may not leave the room that a revocation of every grant takes: then nothing is done."""
    left = left_in(store)
    if needed > left:
        raise Full(f"this may take {needed:,} bytes, and {store.path} has {max(left, 0):,} left beside what revocations need, so nothing "
                   "was done: put less, or make a new store of what stands with renew")


def tell_of_revocations(store):
    """Warns where a revocation of every grant may not find room any more."""
    if left_in(store) < 0:
        warn(f"{store.path} may not have the room that a revocation of every grant takes: make a new one of what stands with renew")


def is_nearly_full(end):
    return end is not None and end > LIMIT * WARNED_AT // 100


def tell(path, end):
    """Warns where a store whose log ends there is nearly full; None is one to which nothing was written."""
    if is_nearly_full(end):
        warn(f"{path} is {end * 100 // LIMIT} in 100 full, and what was overwritten takes its room too; a full one takes no more commands, "
             "a revocation neither: make a new one of what stands with renew")


def tell_of_renewed(path, end):
    """The same of a store that holds nothing but what stands, so that another renew is no help."""
    if is_nearly_full(end):
        warn(f"{path} is {end * 100 // LIMIT} in 100 full with what stands alone: put some of it in a store of its own, and take it away there")
