"""Which store stood where, so that whoever has the disk can't have one store of an owner written in place of another.

A store is known by its header alone, and follows its file; so two of one owner's that were exchanged would each be written with their own
key, for each other's holders. The key folder keeps in `places.json` the identity that a store had at its path when it was last written,
and in `restored.json` that of each copy that `restore` put somewhere, which is never written there.
"""
import json
import os

from folder_store import private
from folder_store.faults import BadKey, Fault, OlderCopy, warn

WRITTEN, RESTORED = "places.json", "restored.json"


def check(path, keys, accept):
    """Refuses another store than the one that was written at this path, save with `accept`."""
    if read(keys).get(os.path.realpath(path), keys.identity) != keys.identity:
        text = f"another store stands at {path} than was written there last"
        if not accept:
            raise Fault(f"{text}: put that one back, or if this one is meant say --accept")
        warn(f"{text}: taken as it is")


def is_restored(path, keys):
    """Whether this is a copy that `restore` put there."""
    return read(keys, RESTORED).get(os.path.realpath(path)) == keys.identity


def see_that_it_may_be_written(path, keys):
    """Refuses a restored copy."""
    if is_restored(path, keys):
        raise OlderCopy(f"{path} is a restored copy, which is only read, since another may have been written after it: make a new store of "
                        "it with renew; or, if the newest was put there since, give that another name")


def keep(path, keys, which=WRITTEN):
    """Keeps which store stands at this path."""
    places, place = read(keys, which), os.path.realpath(path)
    if places.get(place) != keys.identity:
        private.replace(file_of(keys, which), json.dumps(places | {place: keys.identity}, indent=1) + "\n")


def drop(path, keys, which=WRITTEN):
    """Forgets this path."""
    places = read(keys, which)
    places.pop(os.path.realpath(path), None)
    private.replace(file_of(keys, which), json.dumps(places, indent=1) + "\n")


def file_of(keys, which=WRITTEN):
    return os.path.join(keys.above, which)


def read(keys, which=WRITTEN):
    """The identities by places."""
    file = file_of(keys, which)
    try:
        kept = json.loads(private.read(file))
        if all(isinstance(found, str) for found in kept.values()):
            return kept
    except FileNotFoundError:
        return {}
    except (ValueError, AttributeError):
        pass
    raise BadKey(f"{file} isn't what this front end writes: take it away, and see to it that no two stores were exchanged")
