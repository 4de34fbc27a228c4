"""Heads of logs: their leaves, taken from a file by store_reader.py, hashed by rfc6962.py, and what is answered to whoever holds a head.
"""
import rfc6962
import store_reader

BEHIND, FORKED = 19, 20


def leaves(image):
    """The leaves of the log that a file publishes."""
    store_reader.test_header(image, None)
    return [image[:41]] + [image[batch.at:batch.end - 1] for batch, _ in store_reader.log(image, None)]


def head(found):
    """The head over these leaves, as a word."""
    return f"{len(found) - 1}:{rfc6962.root(found).hex()}"


def told(found):
    return 0, f"head {head(found)}\n".encode(), b""


def held(found, word, plain):
    """What a command that reads a store answers where it is handed a head, and `plain` without one."""
    want, root = int(word.split(":")[0]), word.split(":")[1]
    have = len(found) - 1
    if have < want:
        return BEHIND, b"", b"cryptree: behind, %d of %d\n" % (have, want)
    if rfc6962.root(found[:want + 1]).hex() != root:
        return FORKED, b"", b"cryptree: forked at %d\n" % want
    return plain
