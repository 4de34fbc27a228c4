"""Who reads what: `who` by holders, `grants` by folders and files. Both are told by the names of what stands now."""
import json

from folder_store.entry import opened
from folder_store.faults import NoKey, WrongKey, warn
from folder_store.names import core_path, real_path, shown


def add_commands(add):
    words = add("who", who, "tells the holders: name, number, what is granted to them")
    words.add_argument("path", metavar="/PATH", nargs="?", help="those alone who read this folder or file")
    words = add("grants", grants, "tells the folders and files that are granted, and to whom")
    words.add_argument("path", metavar="/PATH", nargs="?", help="those alone that are this folder or file, below it or above it")


def topmost(paths):
    """Those of the paths that none of the others is above."""
    found = set(paths)
    return sorted(path for path in found if not found.intersection(all_above(path)))


def all_above(path):
    """The paths of the folders that this one is in; with a `/` behind it, it's one of them."""
    return {"/", *(path[:at] for at in range(1, len(path)) if path[at] == "/")} - {path}


def who(words):
    """The record, held against what the program shows with each holder's key, where the key folder has it still."""
    asked = asked_for(words)
    told, status = told_of_all(words)
    if asked:
        told = [entry for entry in told if all_above(asked + "/").intersection(map(real_path, entry["paths"]))]
    if words.json:
        print(json.dumps([{"name": entry["name"], "number": entry["number"], "granted": list(map(real_path, entry["paths"])),
                           "from": entry["from"]} for entry in told], ensure_ascii=False))
    for entry in [] if words.json else told:
        print(f"{entry['number']:4}  {entry['name']}  {', '.join(shown(real_path(path)) for path in entry['paths']) or '-'}{note(entry)}")
    return status


def grants(words):
    """The same, by folders and files."""
    asked = asked_for(words)
    told, status = told_of_all(words)
    readers = {}
    for entry in told:
        for path in map(real_path, entry["paths"]):
            if not asked or asked in (path, "/") or path in all_above(asked + "/") or asked in all_above(path):
                readers.setdefault(path, []).append(entry)
    if words.json:
        print(json.dumps([{"path": path, "names": [entry["name"] for entry in entries],
                           "recorded": [entry["name"] for entry in entries if entry["from"] == "record"]}
                          for path, entries in sorted(readers.items())], ensure_ascii=False))
    for path, entries in [] if words.json else sorted(readers.items()):
        print(f"{shown(path)}  {', '.join(entry['name'] + '*' * (entry['from'] == 'record') for entry in entries)}")
    if not words.json and any(entry["from"] == "record" for entries in readers.values() for entry in entries):
        print("*  as recorded: the key isn't here to ask with")
    return status


def asked_for(words):
    """The real path that was typed, where there is one: a large file stands at another path of the store than other files."""
    return words.path and real_path(core_path(words.path))


def note(entry):
    return "   (as recorded: the key isn't here to ask with)" if entry["from"] == "record" else ""


def told_of_all(words):
    """What is granted to each holder, by the store's own paths, and the status: 1 where a holder is shown otherwise than is recorded."""
    told, status = [], 0
    with opened(words, writes=False) as store:
        store.keys.owner()
        for name, (number, granted) in sorted(store.holders.names.items(), key=lambda entry: entry[1][0]):
            seen, paths = seen_by(store, name), sorted(granted)
            if seen is not None and seen != topmost(granted):
                warn(f"{name}: the store grants otherwise than is recorded, as an older copy does, or one that the program was used on "
                     "without this front end; what is told is what the store shows")
                paths, status = seen, 1
            told.append({"name": name, "number": number, "paths": paths, "from": "record" if seen is None else "store"})
    return told, status


def seen_by(store, name):
    """The topmost that the store shows to a holder, nothing to one that it doesn't know; None where their key isn't here."""
    try:
        return granted_to(store, store.keys.holder(name))
    except NoKey:
        return None
    except WrongKey:
        return []


def granted_to(store, key):
    """The topmost folders that the store shows to this holder, and the files that are in none of these."""
    return topmost(line.path for line in store.listing(key) if line.kind != "ancestor")
