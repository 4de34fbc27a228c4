"""`head`: which history of a store was seen and which stands there, told so that two people can compare theirs."""
import json
import os

from folder_store import places
from folder_store import store as stores
from folder_store.entry import opened
from folder_store.faults import BadWords, OlderCopy
from folder_store.last import HEAD, against, batches

TO_KEEP = "put the newest copy in its place; where you know that this is the right one, say --accept, which keeps its head from now on"
TO_ASK = "ask whoever told that head which store they read, and go on with neither before it's known which is the right one"


def add_commands(add):
    words = add("head", head, "prints the kept and the present head of the store, which name its history, for two people to compare")
    words.add_argument("head", metavar="HEAD", nargs="?", help="a head that another was told: the store has to go on from it")


def head(words):
    """Both are printed, and then it's told where the store doesn't go on from the kept one, or from the other's."""
    told = words.head and words.head.lower()
    if told and not HEAD.fullmatch(told):
        raise BadWords(f"{words.head!r} is no head: take one as head prints it, N:HEX")
    with opened(words, writes=False, older=stores.COPY) as store:
        last = store.asked_for_its_head()
        print_heads(words, last.kept and last.kept.head, last.present, told)
        cause = told and against(told, last.present, words.store, store.handle)
        if cause:
            raise OlderCopy(f"of the head that was told: {cause}; {TO_ASK}")
        keep(store, last, words.accept)


def print_heads(words, kept, present, told):
    """The heads, and how many batches came after the one that was told: whoever told it vouches for none of these."""
    if words.json:
        print(json.dumps({"kept": kept, "present": present} | ({"told": told} if told else {})))
        return
    print(f"kept     {kept or '-'}\npresent  {present}")
    if told:
        more = batches(present) - batches(told)
        print(f"told     {told}" + f", {more} batch{'es' * (more != 1)} before the present one" * (more > 0))


def keep(store, last, accept):
    """Keeps the present head where it goes on from the kept one, or is accepted; where the owner's key is here it tests the tags
    first. That of a restored copy is never kept."""
    if last.cause and not accept:
        raise OlderCopy(f"{last.cause}; nothing was kept: {TO_KEEP}")
    if accept:
        places.see_that_it_may_be_written(store.path, store.keys)
    if os.path.exists(store.keys.file("owner.key")) and not (last.kept and last.kept.head == last.present):
        store.listing(store.owner)
    if accept:
        store.keys.make()
        last.keep_present()
    elif not places.is_restored(store.path, store.keys):
        store.last = last
