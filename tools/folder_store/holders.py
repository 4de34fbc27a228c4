"""Who has which number, and what was granted to them.

The program tells holders' numbers when it makes them, and no grants; so both are kept in `holders.json`:

    {"version": 1, "holders": {"ann": {"number": 1, "granted": ["/trip"]}}}

It follows what this front end does: a grant goes with a folder or file that is moved or renamed, and with one that is removed it's gone.
What is done with the program itself isn't seen here; `who` asks the program where it has the holder's key.
"""
import json

from folder_store import private
from folder_store.faults import BadKey, Fault


def moved(path, old, new):
    """The path where the node at `old`, with all below it, has come to be at `new` (None: is gone)."""
    if path != old and not path.startswith(old + "/"):
        return path
    return None if new is None else new + path[len(old):]


def inside(folder, name):
    return "/" + name if folder == "/" else f"{folder}/{name}"


class Holders:
    """The record of one store."""

    def __init__(self, path):
        self.path, self.names = path, {}
        try:
            kept = json.loads(private.read(path))
            if kept["version"] != 1:
                raise ValueError
            for name, entry in kept["holders"].items():
                self.names[name] = (int(entry["number"]), {str(grant) for grant in entry["granted"]})
        except FileNotFoundError:
            pass
        except (ValueError, KeyError, TypeError, AttributeError):
            raise BadKey(f"{path} isn't what this front end writes: put it back from its copy") from None

    def save(self):
        entries = {name: {"number": number, "granted": sorted(grants)} for name, (number, grants) in self.names.items()}
        private.replace(self.path, json.dumps({"version": 1, "holders": entries}, indent=1, ensure_ascii=False) + "\n")

    def number(self, name):
        if name not in self.names:
            known = ", ".join(sorted(self.names)) or "nobody yet"
            raise Fault(f"no holder is called {name!r} here (known: {known}): check the name, or make them with holder add")
        return self.names[name][0]

    def add(self, name, number, granted=()):
        self.names[name] = (number, set(granted))
        self.save()

    def follow(self, line):
        """Keeps what an accepted line did to the grants, and gives the names and paths of those that went with what was removed."""
        word, *fields = line.split(" ", 2)
        if word not in ("grant", "revoke", "rm", "rename", "move"):
            return []
        before = {name: set(grants) for name, (_, grants) in self.names.items()}
        if word in ("grant", "revoke"):
            for number, grants in self.names.values():
                if number == int(fields[0]):
                    (grants.add if word == "grant" else grants.discard)(fields[1])
        else:
            old = fields[0]
            above, _, name = old.rpartition("/")
            new = None if word == "rm" else inside(above or "/", fields[1]) if word == "rename" else inside(fields[1], name)
            for _, grants in self.names.values():
                kept = {moved(path, old, new) for path in grants} - {None}
                grants.clear()
                grants.update(kept)
        if before != {name: grants for name, (_, grants) in self.names.items()}:
            self.save()
        return [(name, fields[0]) for name, grants in before.items() if word == "rm" and fields[0] in grants]
