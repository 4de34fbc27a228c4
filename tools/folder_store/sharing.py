"""What makes stores and holders, and who is let to read: the commands init, adopt, upgrade, holder, grant and revoke."""
import json
import os

from folder_store import replacing, room
from folder_store import store as stores
from folder_store.entry import opened
from folder_store.faults import AlreadyNew, BadWords, Fault, Refused
from folder_store.keys import checked_name, read_key
from folder_store.names import HALF, PARTS, core_path, real_path
from folder_store.private import NewFile
from folder_store.who import granted_to

NOT_THERE = "refused no-path"


def add_commands(add):
    add("init", init, "makes a new store, and its owner's key in the key folder")
    add("adopt", adopt, "takes in a store that was made without this program, or whose key folder is gone, by the owner's key in --key")
    add("upgrade", upgrade, "makes a store of version 1, which can be read alone, one of version 2; its keys and grants stay")
    words = add("holder", holder, "makes a holder, with a key file to hand over, takes in one that has a key, or gives one a new key")
    words.add_argument("what", metavar="add|adopt|replace", choices=["add", "adopt", "replace"],
                       help="adopt: the holder whose key is in --key FILE; replace: the grants go over to a new key, and the old one has none")
    words.add_argument("name", metavar="NAME")
    words.add_argument("--to", metavar="FILE", help="where the key file goes (NAME.key in the key folder)")
    for name, function, text in (("grant", grant, "lets a holder read a folder and all below it, or a file alone"),
                                 ("revoke", revoke, "takes such a grant back, and no other")):
        words = add(name, function, text)
        words.add_argument("name", metavar="NAME")
        words.add_argument("path", metavar="/PATH")


def tell(words, text, **facts):
    """What was done, on standard output."""
    print(json.dumps(facts, ensure_ascii=False) if words.json else text)


def init(words):
    keys = stores.make(words.store, words.keys)
    tell(words, f"made {words.store}; its keys are in {keys.path}: keep a copy of that folder in a safe place",
         store=os.path.abspath(words.store), keys=keys.path)


def adopt(words):
    if words.key is None:
        raise BadWords("adopt takes a store in by its owner's key: name the file that has it with --key FILE")
    keys = stores.take_in(words.store, words.keys, read_key(words.key, words.key), not words.no_wait, words.accept)
    tell(words, f"took in {words.store} as the newest that there is; its owner's key is in {keys.path} now, and its holders get names with "
         "holder adopt", store=os.path.abspath(words.store), keys=keys.path)


def upgrade(words):
    """Done twice, the second one finds it done. No room is kept back for revocations: before an upgrade a store takes none at all, so one
    that isn't done leaves no more of them than one that takes their room. That is told."""
    with opened(words, writes=True) as store:
        try:
            store.upgrade()
            room.tell_of_revocations(store)
            text = f"made {words.store} one of version 2: it can be written, and what leaves a folder is closed to later readers"
        except AlreadyNew:
            text = f"{words.store} is of version 2 already"
    tell(words, text, store=os.path.abspath(words.store), version=2)


def holder(words):
    if words.what == "adopt":
        return adopt_holder(words)
    if words.what == "replace":
        return replace_holder(words)
    with opened(words, writes=True) as store:
        name, holders = new_name(store, words.name)
        place = os.path.abspath(words.to or store.keys.file(name + ".key"))
        number = made_before(store, name, place, holders) or made_now(store, place)
        holders.add(name, number)
    tell(words, f"{name} is holder {number}; hand the key over by a way that nobody else reads: {place}",
         name=name, number=number, key=place)


def new_name(store, name):
    """A holder's name that is free, and the record that it's to go into."""
    holders = store.holders
    if checked_name(name) in holders.names:
        raise Fault(f"{name} is a holder already, with the number {holders.number(name)}: take another name")
    return name, holders


def adopt_holder(words):
    """Gives a name to a holder that was made without this front end. Of grants one within the other the outer one alone can be told."""
    if words.key is None:
        raise BadWords("holder adopt takes a holder in by their key: name the file that has it with --key FILE")
    with opened(words, writes=True) as store:
        name, holders = new_name(store, words.name)
        key = read_key(words.key, words.key)
        if key.is_owner:
            raise Fault(f"{words.key} has an owner's key in it: name a file with a holder's")
        taken = [other for other, (number, _) in holders.names.items() if number == key.number]
        if taken:
            raise Fault(f"this is the key of {taken[0]}, who is a holder here already: go on with that name")
        granted = granted_to(store, key)
        place = os.path.abspath(words.to or store.keys.file(name + ".key"))
        if not (os.path.exists(place) and os.path.samefile(place, words.key)):
            with NewFile(place) as file:
                file.put(key.line + "\n")
        holders.add(name, key.number, granted)
    tell(words, f"{name} is holder {key.number}, with {len(granted)} grant{'s' * (len(granted) != 1)}; the key is in {place}",
         name=name, number=key.number, key=place, granted=granted)


def replace_holder(words):
    """Several people who share one key: one of them leaves, and the others get a new one."""
    with opened(words, writes=True) as store:
        number, granted, place = replacing.replaced(store, words.name, words.to)
    tell(words, f"{words.name} is holder {number} now, with {len(granted)} grant{'s' * (len(granted) != 1)}, and the old key has none; hand "
         f"the new one over to those who stay, by a way that nobody else reads: {place}",
         name=words.name, number=number, key=place, granted=list(map(real_path, granted)))


def made_now(store, place):
    """The number of a new holder, whose key file is made here."""
    with NewFile(place) as file:
        room.see_to(store, room.COMMAND)
        reply, = store.run(["holder"])
        file.put(reply + "\n")
    return int(reply.split(" ")[1])


def made_before(store, name, place, holders):
    """The number in a key file that a stopped `holder add` left, where it's a key of this store that no other name has; else None."""
    if place != store.keys.file(name + ".key") or not os.path.exists(place):
        return None
    key = store.keys.holder(name)
    store.listing(key)
    return key.number if key.number not in [number for number, _ in holders.names.values()] else None


def change(words, command, settled):
    """A grant or its taking back. Where the store says that it's so already, the record of grants is put right before that is told."""
    with opened(words, writes=True) as store:
        holders = store.holders
        lines = [f"{command} {holders.number(words.name)} {core_path(words.path, mark)}" for mark in ("", PARTS, HALF)]
        if command == "grant":
            room.see_to(store, room.COMMAND)
        try:
            run_first_found(store, lines)
        except Refused as refused:
            if refused.reply == settled:
                holders.follow(refused.line)
            raise
    done = "may read" if command == "grant" else "no longer has the grant on"
    tell(words, f"{words.name} {done} {words.path}", name=words.name, **{command: words.path})


def run_first_found(store, lines):
    """Has the store do the first of these lines whose path something has: a large file stands at another path than other files, and at a
    third one where a put of it was stopped."""
    refusals = []
    for line in lines:
        try:
            return store.run([line])
        except Refused as refused:
            refusals.append(refused)
            if refused.reply != NOT_THERE:
                raise
    raise refusals[0]


def grant(words):
    change(words, "grant", "refused has-grant")


def revoke(words):
    change(words, "revoke", "refused no-grant")
