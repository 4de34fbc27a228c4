"""What the version before kept of a store in `last`, which is read and not written any more.

It told how far the store's log reached and the SHA-256 of it. What may change where a store goes on wasn't hashed: the gate at the end,
and the last batch's slot, which stands as 32 zero bytes.
"""
import hashlib
import os

HEADER, SLOT, CHUNK = 42, 32, 1 << 20


def fields(kept):
    """The place of the last batch's slot (None where there was no batch) and the digest; ValueError where they aren't."""
    slot, due = kept["slot"], kept["sha256"]
    if not isinstance(due, str) or (slot is not None and not (isinstance(slot, int) and HEADER <= slot < 1 << 32)):
        raise ValueError
    return slot, due


def goes_on(handle, end, kept):
    """Whether a store goes on from what was kept, which ended there."""
    slot, due = kept
    return os.fstat(handle).st_size >= end and digest(handle, end, slot) == due


def digest(handle, end, slot):
    """The SHA-256 of the log up to the gate at its end, its last slot as zero bytes."""
    found = hashlib.sha256()
    for begin, stop in [(0, end - 1)] if slot is None else [(0, slot), (slot + SLOT, end - 1)]:
        if begin:
            found.update(bytes(SLOT))
        while begin < stop:
            data = os.pread(handle, min(CHUNK, stop - begin), begin)
            if not data:
                return None     # it ends sooner
            found.update(data)
            begin += len(data)
    return found.hexdigest()
