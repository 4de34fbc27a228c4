"""Merkle trees, heads and consistency proofs, written from the text of RFC 6962, section 2.1, over whole lists of leaves."""
import hashlib


def sha256(text):
    """The SHA-256 value of the bytes."""
    return hashlib.sha256(text).digest()


def split_of(count):
    """The largest power of two below `count`, which is above 1."""
    split = 1
    while split * 2 < count:
        split *= 2
    return split


def node(left, right):
    """The hash of a node over two hashes."""
    return sha256(b"\1" + left + right)


def root(leaves):
    """MTH: the hash over the leaves, which are bytes, and of which the RFC lets there be none."""
    if not leaves:
        return sha256(b"")
    if len(leaves) == 1:
        return sha256(b"\0" + leaves[0])
    split = split_of(len(leaves))
    return node(root(leaves[:split]), root(leaves[split:]))


def proof(first, leaves):
    """PROOF: the hashes which show that the tree over the first `first` leaves, 1 to all of them, begins the tree over all."""
    return part_of_proof(first, leaves, True)


def part_of_proof(first, leaves, whole):
    """SUBPROOF: the same within a subtree, which is `whole` where it begins the log."""
    if first == len(leaves):
        return [] if whole else [root(leaves)]
    split = split_of(len(leaves))
    if first <= split:
        return part_of_proof(first, leaves[:split], whole) + [root(leaves[split:])]
    return part_of_proof(first - split, leaves[split:], False) + [root(leaves[:split])]


def is_consistent(first, old_root, second, new_root, hashes):
    """Whether the proof leads to both roots, by the steps of RFC 9162, section 2.1.4.2, which name no subtree."""
    if first > second or first < 1:
        return False
    if first == second:
        return not hashes and old_root == new_root
    path = list(hashes)
    if first & (first - 1) == 0:
        path.insert(0, old_root)
    if not path:
        return False
    at, last = first - 1, second - 1
    while at & 1:
        at, last = at >> 1, last >> 1
    older = newer = path[0]
    for beside in path[1:]:
        if last == 0:
            return False
        if at & 1 or at == last:
            older, newer = node(beside, older), node(beside, newer)
            while at and not at & 1:
                at, last = at >> 1, last >> 1
        else:
            newer = node(newer, beside)
        at, last = at >> 1, last >> 1
    return last == 0 and older == old_root and newer == new_root


# The leaves and roots that Certificate Transparency's implementations are tested with.
PUBLISHED_LEAVES = tuple(bytes.fromhex(leaf) for leaf in (
    "", "00", "10", "2021", "3031", "40414243", "5051525354555657", "606162636465666768696a6b6c6d6e6f"))
PUBLISHED_ROOTS = (
    "6e340b9cffb37a989ca544e6bb780a2c78901d3fb33738768511a30617afa01d",
    "fac54203e7cc696cf0dfcb42c92a1d9dbaf70ad9e621f4bd8d98662f00e3c125",
    "aeb6bcfe274b70a14fb067a5e5578264db0fa9b51af5e0ba159158f329e06e77",
    "d37ee418976dd95753c1c73862b9398fa2a2cf9b4ff0fdfe8b30cd95209614b7",
    "4e3bbb1f7b478dcfe71fb631631519a3bca12c9aefca1612bfce4c13a86264d4",
    "76e67dadbcdf1e10e1b74ddc608abd2f98dfb16fbce75277b5232a127f2087ef",
    "ddb89be403809e325750d3d263cd78929c2942b7942a34b77e122c9594a74c8c",
    "5dc9da79a70659a9ad559cb701ded9a2ab9d823aad2f4960cfe370eff4604328",
)


def check_itself():
    """Tests the above by the published roots, and each proof over 1 to 130 leaves by the other section's steps."""
    for count, wanted in enumerate(PUBLISHED_ROOTS, 1):
        assert root(PUBLISHED_LEAVES[:count]).hex() == wanted, count
    leaves = [bytes([number]) for number in range(130)]
    roots = [root(leaves[:count]) for count in range(131)]
    for second in range(1, 131):
        for first in range(1, second + 1):
            hashes = proof(first, leaves[:second])
            assert is_consistent(first, roots[first], second, roots[second], hashes), (first, second)
            assert not is_consistent(first, roots[first], second, roots[second], hashes + [roots[1]]), (first, second)


if __name__ == "__main__":
    check_itself()
    print("rfc6962: the published roots, and the proofs over 1 to 130 leaves")
