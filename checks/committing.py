"""What is written to a store, by docs/FORMAT.md, "Committing": the writes of a batch, what a stop may leave of one, and how many random
bytes a command drew."""
from changed_bytes import batches
from key_step import State
from store_reader import veil


def writes(image, batch, owner):
    """The three writes by which a batch joins the log, each with its place: itself with a zero slot and a closed gate, the gate before
    it, its slot. A sync follows each."""
    whole = image[batch.at:batch.at + 13] + bytes(32) + image[batch.at + 45:batch.end - 1] + b"\0"
    return (batch.at, whole), (batch.at - 1, b"\1"), (batch.at + 13, veil(owner, batch))


def torn(image, place, data):
    """What a stop at a write may leave of it: its bytes up to one, or those from one on. With each, whether it is done."""
    size = len(data)
    ends = sorted({0, min(13, size), size // 2, size - 1, size})
    for begin, end in [(0, end) for end in ends] + [(size // 2, size), (size - 1, size)]:
        left = bytearray(image.ljust(place + end, b"\0") if begin < end else image)
        left[place + begin:place + end] = data[begin:end]
        yield f"bytes {begin} to {end} of {size} written", bytes(left), (begin, end) == (0, size)


def commands(image, owner, first=0):
    """What each command did that wrote the batches from this one on: how many bytes it drew for the roles that got keys, and its writes,
    behind those of the epoch that it began."""
    state, found, begun = State(), [], []
    for number, (batch, payload) in enumerate(batches(image, owner)):
        if number >= first:
            begun += writes(image, batch, owner)
        if payload is None:
            state.begin_epoch(batch.epoch)
            continue
        drawn = 32 * len(state.take(payload.code, payload.fields)[0])
        if number >= first:
            found.append((drawn, begun))
        begun = []
    return found
