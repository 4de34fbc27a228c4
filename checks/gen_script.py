"""The script of `gen`, by the rule of docs/PROGRAM.md alone."""

OPENING = ([b"mkdir /d%d" % i for i in range(8)] + [b"write /d%d/t%d 00" % (i, i) for i in range(8)] + [b"holder"] * 4)


def lines(seed, count):
    """The script of a seed, by the rule."""
    x, homes, grants, found = seed, list(range(8)), set(), list(OPENING)
    for _ in range(count):
        x = (x * 6364136223846793005 + 1442695040888963407) % 2 ** 64
        r = x // 2 ** 32
        a, i, k, h, b = r % 4, r // 4 % 8, r // 32 % 8, r // 256 % 4 + 1, r // 1024 % 256
        if a < 2:
            found.append(b"write /d%d/f%d %02x" % (i, k, b))
        elif a == 2:
            found.append(b"%s %d /d%d" % (b"revoke" if (h, i) in grants else b"grant", h, i))
            grants ^= {(h, i)}
        else:
            other = (homes[i] + 1 + k % 7) % 8
            found.append(b"move /d%d/t%d /d%d" % (homes[i], i, other))
            homes[i] = other
    return found
