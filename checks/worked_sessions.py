"""The worked sessions: stores of given random bytes, each over one that an earlier session left, in both versions.

The program has to leave what store_writer.py leaves, and where a store has version 1 its `run` leaves it as it is. Where a SHA-256 value
stands here, two other programs that were written from the formats alone computed the image.
"""
import copy
import hashlib
from collections import namedtuple

import harness
import store_reader
from store_reader import Bundle
from store_writer import Writer

SEED = bytes(range(192))  # the random bytes of `make`
FRESH_SIZE = 819
FRESH = {1: "9c7fff8de5440ff5ca4397c046c6026c3aeb5ce9956eb764031bdeb4706a61e6",
         2: "f278a25705eb68934808a075d6daaffa97dc8029ed3baadf364b4aa0f1a3ed2d"}  # by the version
FALLING = bytes(255 - i % 256 for i in range(1024))  # the random bytes of each session

# the lines of a session with their replies, of which `upgrade` is a command; how many random bytes they draw, and the size of what is left;
# the versions that it's for, each with the SHA-256 value, if others computed it; what is shown of it, and what an audit shows, first to the
# owner and then to each holder
Row = namedtuple("Row", "name before text drawn size digests views audits")
# what is left, the line of each key, the owner's first, and the version
Store = namedtuple("Store", "image bundles version", defaults=(harness.MADE_VERSION,))

OWNER_KEY = SEED[:32]
OWNER = b"owner " + OWNER_KEY.hex().encode() + b"\n"

MOVE = """
        mkdir /s -> ok
        mkdir /p -> ok
        mkdir /s/d -> ok
        write /s/d/f 01 -> ok
        holder -> holder 1 fffefdfcfbfaf9f8f7f6f5f4f3f2f1f0efeeedecebeae9e8e7e6e5e4e3e2e1e0
        grant 1 /s -> ok
        move /s/d /p -> ok
        write /p/d/f 02 -> ok
"""
MOVE_VIEWS = "folder / | folder /p | folder /p/d | file /p/d/f 02 | folder /s", "ancestor / | folder /s"
MOVE_AUDITS = ("folder 2 1  | folder 4 2 s | folder 5 3 p | folder 6 4 d | file 7 1 f 01 | file 11 1 f 02",
               "folder 2 1  | folder 4 2 s | folder 6 4 d | file 7 1 f 01")
DEPARTURE = """
        mkdir /a -> ok
        mkdir /b -> ok
        write /a/x 00 -> ok
        move /a/x /b -> ok
        holder -> holder 1 {}
        grant 1 /a -> ok
"""
DEPARTURE_VIEWS = "folder / | folder /a | folder /b | file /b/x 00", "ancestor / | folder /a"

# lines of `serve` over the store "grant", with their replies, by two other programs that were written from the formats alone: what they leave
# is "revoked"
HOLDER = b"3f3e3d3c3b3a393837363534333231302f2e2d2c2b2a29282726252423222120"
VIEW = b"ancestor /\nfolder /a\nfile /a/x 00ff\nend\n"
SERVED = (
    (b"session 1 " + HOLDER, b"session 1 of 7\n"), (b"step 1", b"read 1 of 7\n"), (b"revoke 1 /a", b"ok\n"),
    *((b"step 1", b"read %d of 7\n" % number) for number in range(2, 8)),
    (b"show 1", VIEW), (b"pin 1", b"pinned 9\n"), (b"show 1", b"refused not-read\n"), (b"step 1", b"read 8 of 9\n"),
    (b"step 1", b"read 9 of 9\n"), (b"show 1", b"end\n"), (b"show 2", b"refused no-session\n"), (b"session 7 " + HOLDER, b"session 2 of 9\n"),
    (b"session 1 " + b"0" * 64, b"session 3 of 9\n"), (b"step 2", b"read 1 of 9\n"),
)

FIRST_DRAWN = "fffefdfcfbfaf9f8f7f6f5f4f3f2f1f0efeeedecebeae9e8e7e6e5e4e3e2e1e0"
SECOND_HOLDER = f"""
        holder -> holder 2 {FIRST_DRAWN}"""

ROWS = (
    Row("tree and rename", "fresh", """
        mkdir /a -> ok
        write /a/x 00ff -> ok
        rename /a/x y -> ok
     """, 192, 2273, {1: "f3eda7ea8044d9031eb227a74136349f7ff08d7f14f3e9969081ee85e95ed794", 2: None},
     ("folder / | folder /a | file /a/y 00ff",),
     ("folder 2 1  | folder 4 2 a | file 5 1 x 00ff | file 6 1 y 00ff",)),
    Row("empty rewrite in a second session", "tree and rename", """
        write /a/y -> ok
     """, 0, 2566, {1: "6e562366b7d8556b3bf5eaaff93d33113bd97682abaded50a0eb339eac6b28b7", 2: None},
     ("folder / | folder /a | file /a/y ",),
     ("folder 2 1  | folder 4 2 a | file 5 1 x 00ff | file 6 1 y 00ff | file 8 1 y ",)),
    Row("grant", "fresh", """
        mkdir /a -> ok
        write /a/x 00ff -> ok
        holder -> holder 1 3f3e3d3c3b3a393837363534333231302f2e2d2c2b2a29282726252423222120
        grant 1 /a -> ok
     """, 224, 2558, {1: "f3f2a187bdf58a500fc769c74efdca9e2b36b8cac17a4bb2fc41cc3e9fb806f4",
                2: "a7eac1dbcd920b5fc0cd0e67f7ff32cdab037a2a51755704b8006effd678b7ff"},
     ("folder / | folder /a | file /a/x 00ff", "ancestor / | folder /a | file /a/x 00ff"),
     ("folder 2 1  | folder 4 2 a | file 5 1 x 00ff", "folder 2 1  | folder 4 2 a | file 5 1 x 00ff")),
    Row("revoked", "grant", """
        revoke 1 /a -> ok
     """, 32, 2991, {1: "3398db7986c732c1677d5a8d1d5a950dab55740b4c0b6bc8fe9d10ab55770b95",
                2: "5c8c4883beac515c981190c7db8d65eeb468783faee325eeb4f403a090e349d7"},
     ("folder / | folder /a | file /a/x 00ff", ""),
     ("folder 2 1  | folder 4 2 a | file 5 1 x 00ff", "folder 2 1  | folder 4 2 a | file 5 1 x 00ff")),
    Row("written after revocation, the first line", "revoked", """
        write /a/x 01 -> ok
     """, 96, 3775, {1: "46d59304842fff88a1e7c2924838746f5ca74ee0f0f4cce4848f2306004b1042", 2: None},
     ("folder / | folder /a | file /a/x 01", ""),
     ("folder 2 1  | folder 4 2 a | file 5 1 x 00ff | file 11 1 x 01", "folder 2 1  | folder 4 2 a | file 5 1 x 00ff")),
    Row("written after revocation", "revoked", """
        write /a/x 01 -> ok
        holder -> holder 2 9f9e9d9c9b9a999897969594939291908f8e8d8c8b8a89888786858483828180
        grant 2 / -> ok
     """, 128, 4245, {1: "03746dbd688a15184b88859aa3120530e8d702cccc7854e39af7b2ab08b332a6", 2: None},
     ("folder / | folder /a | file /a/x 01", "", "folder / | folder /a | file /a/x 01"),
     ("folder 2 1  | folder 4 2 a | file 5 1 x 00ff | file 11 1 x 01", "folder 2 1  | folder 4 2 a | file 5 1 x 00ff",
      "folder 2 1  | folder 4 2 a | file 5 1 x 00ff | file 11 1 x 01")),
    Row("rename after revocation", "fresh", """
        mkdir /a -> ok
        mkdir /a/b -> ok
        holder -> holder 1 bfbebdbcbbbab9b8b7b6b5b4b3b2b1b0afaeadacabaaa9a8a7a6a5a4a3a2a1a0
        holder -> holder 2 9f9e9d9c9b9a999897969594939291908f8e8d8c8b8a89888786858483828180
        grant 1 /a -> ok
        grant 2 /a/b -> ok
        revoke 1 /a -> ok
        rename /a z -> ok
     """, 576, 5294, {1: "3e0fd074b3d7b8cbd69f3710961ecdbd915031088bfed7525bc903615d42099b", 2: None},
     ("folder / | folder /z | folder /z/b", "", "ancestor / | ancestor /z | folder /z/b"),
     ("folder 2 1  | folder 4 2 a | folder 5 3 b | folder 11 2 z", "folder 2 1  | folder 4 2 a | folder 5 3 b",
      "folder 2 1  | folder 4 2 a | folder 5 3 b | folder 11 2 z")),
    Row("revoked and written", "grant", """
        revoke 1 /a -> ok
        write /a/x 01 -> ok
     """, 128, 3665, {1: "396733aac63a0760ee59eca269bcd81e9ae020eb7fbd9bdafcdaee361da8d4e1",
                      2: "a5f1abadc55791a8d0af6abca47b3d63b2e3ac99347d6087def815f87a733bee"},
     ("folder / | folder /a | file /a/x 01", ""),
     ("folder 2 1  | folder 4 2 a | file 5 1 x 00ff | file 10 1 x 01", "folder 2 1  | folder 4 2 a | file 5 1 x 00ff")),
    Row("move away from a grant", "fresh", MOVE, 672, 5396, {1: "3a143555d67a12bf05ec9242bf702ccfe07a8613013e27e9f4d97677f95ef234"},
        MOVE_VIEWS, MOVE_AUDITS),
    Row("move away from a grant", "fresh", MOVE, 832, 6572, {2: "efd0a04e6eb36a95f2cdad2579fcdae0a376c340e4f5a2a312fd94d82a7a82e1"},
        MOVE_VIEWS, MOVE_AUDITS),
    Row("departure", "fresh", DEPARTURE.format("9f9e9d9c9b9a999897969594939291908f8e8d8c8b8a89888786858483828180"), 384, 3654,
        {1: "a49cf4df5e3244f3767eb6845f376a1fff2c0154c6aafa27e5c64c72b912f4b3"}, DEPARTURE_VIEWS,
        ("folder 2 1  | folder 4 2 a | folder 5 3 b | file 6 1 x 00", "folder 2 1  | folder 4 2 a | file 6 1 x 00")),
    Row("departure", "fresh", DEPARTURE.format("fffefdfcfbfaf9f8f7f6f5f4f3f2f1f0efeeedecebeae9e8e7e6e5e4e3e2e1e0"), 544, 4634,
        {2: "96efea168f03557a046969c995733f8d427eecf438a97be81b4083a09d8139ef"}, DEPARTURE_VIEWS,
        ("folder 2 1  | folder 4 2 a | folder 5 3 b | file 6 1 x 00", "folder 2 1  | folder 4 2 a")),
    Row("upgraded", "grant", "upgrade -> ok", 256, 4159, {1: "70b459b2592ebfedf6505907057a29043996fb6d3b557828e747c89a43c821f5"},
        ("folder / | folder /a | file /a/x 00ff", "ancestor / | folder /a | file /a/x 00ff"),
        ("folder 2 1  | folder 4 2 a | file 5 1 x 00ff",) * 2),
    Row("departure after the upgrade", "upgraded", """
        mkdir /b -> ok
        move /a/x /b -> ok
        write /b/x 02 -> ok
     """, 352, 6726, {1: "557117292019424fb68d02d3986d392bffa60ddd556d6410759af0875ed129e8"},
     ("folder / | folder /a | folder /b | file /b/x 02", "ancestor / | folder /a"),
     ("folder 2 1  | folder 4 2 a | file 5 1 x 00ff | folder 11 3 b | file 13 1 x 02", "folder 2 1  | folder 4 2 a | file 5 1 x 00ff")),
    Row("file grant", "grant", SECOND_HOLDER + """
        grant 2 /a/x -> ok
     """, 64, 3432, {2: "bbde8751ebfa4d2fb4ff927125fdefe49e16de3cf3ca5ecf408af7fe3ff1e55f"},
     ("folder / | folder /a | file /a/x 00ff", "ancestor / | folder /a | file /a/x 00ff", "ancestor / | ancestor /a | file /a/x 00ff"),
     ("folder 2 1  | folder 4 2 a | file 5 1 x 00ff",) * 3),
    Row("file grant after the upgrade", "upgraded", SECOND_HOLDER + """
        grant 2 /a/x -> ok
     """, 64, 5033, {1: None},
     ("folder / | folder /a | file /a/x 00ff", "ancestor / | folder /a | file /a/x 00ff", "ancestor / | ancestor /a | file /a/x 00ff"),
     ("folder 2 1  | folder 4 2 a | file 5 1 x 00ff",) * 3),
    Row("file grant, two on the file", "file grant", """
        grant 1 /a/x -> ok
        revoke 2 /a/x -> ok
     """, 32, 4286, {2: None},
     ("folder / | folder /a | file /a/x 00ff", "ancestor / | folder /a | file /a/x 00ff", ""),
     ("folder 2 1  | folder 4 2 a | file 5 1 x 00ff",) * 3),
    Row("folder revoked, file kept", "file grant", """
        revoke 1 /a -> ok
        write /a/x 01 -> ok
     """, 128, 4637, {2: "cfd8452d31681905fcfce8db9f830bd25bd75a31b7aaafdd6939f4b4ec6c248f"},
     ("folder / | folder /a | file /a/x 01", "", "ancestor / | ancestor /a | file /a/x 01"),
     ("folder 2 1  | folder 4 2 a | file 5 1 x 00ff | file 13 1 x 01", "folder 2 1  | folder 4 2 a | file 5 1 x 00ff",
      "folder 2 1  | folder 4 2 a | file 5 1 x 00ff | file 13 1 x 01")),
    Row("file revoked", "grant", SECOND_HOLDER + """
        grant 2 /a/x -> ok
        revoke 2 /a/x -> ok
        write /a/x 01 -> ok
     """, 96, 3841, {2: "dd62e49d4e41643f664ffb00b9d07d11889c295e3f42bbae6a23a9170930b2e2"},
     ("folder / | folder /a | file /a/x 01", "ancestor / | folder /a | file /a/x 01", ""),
     ("folder 2 1  | folder 4 2 a | file 5 1 x 00ff | file 12 1 x 01",) * 2 + ("folder 2 1  | folder 4 2 a | file 5 1 x 00ff",)),
    Row("file moved with its grant", "grant", SECOND_HOLDER + """
        mkdir /b -> ok
        grant 2 /a/x -> ok
        move /a/x /b -> ok
        write /b/x 03 -> ok
     """, 448, 6379, {2: None},
     ("folder / | folder /a | folder /b | file /b/x 03", "ancestor / | folder /a", "ancestor / | ancestor /b | file /b/x 03"),
     ("folder 2 1  | folder 4 2 a | file 5 1 x 00ff | folder 10 3 b | file 13 1 x 03", "folder 2 1  | folder 4 2 a | file 5 1 x 00ff",
      "folder 2 1  | folder 4 2 a | file 5 1 x 00ff | folder 10 3 b | file 13 1 x 03")),
    Row("file moved with its grant, and removed", "grant", SECOND_HOLDER + """
        mkdir /b -> ok
        grant 2 /a/x -> ok
        move /a/x /b -> ok
        write /b/x 03 -> ok
        rename /b/x y -> ok
        rm /b/y -> ok
     """, 608, 7666, {2: "5945cba0f680811530c625489b70b5b7c9c7c0da495690dec886daed22b3d0e2"},
     ("folder / | folder /a | folder /b", "ancestor / | folder /a", ""),
     ("folder 2 1  | folder 4 2 a | file 5 1 x 00ff | folder 10 3 b | file 13 1 x 03 | file 14 1 y 03",
      "folder 2 1  | folder 4 2 a | file 5 1 x 00ff",
      "folder 2 1  | folder 4 2 a | file 5 1 x 00ff | folder 10 3 b | file 13 1 x 03 | file 14 1 y 03")),
    Row("replaced", "grant", f"""
        replace 1 -> holder 2 {FIRST_DRAWN}, ok, ok
        replace 9 -> refused no-holder
        replace 1 -> holder 3 bfbebdbcbbbab9b8b7b6b5b4b3b2b1b0afaeadacabaaa9a8a7a6a5a4a3a2a1a0
     """, 96, 3804, {2: "de8e04a8bfba746514234c25830d4f27364c489acadb4b8cdf6a70b4ca3a66ba"},
     ("folder / | folder /a | file /a/x 00ff", "", "ancestor / | folder /a | file /a/x 00ff", ""),
     ("folder 2 1  | folder 4 2 a | file 5 1 x 00ff",) * 3 + ("",)),
    Row("replaced, with files", "replaced", f"""
        mkdir /b -> ok
        write /b/y 01 -> ok
        grant 2 /b/y -> ok
        grant 2 /a/x -> ok
        grant 1 /b/y -> ok
        grant 2 /b -> ok
        replace 2 -> holder 4 {FIRST_DRAWN}, ok, ok, ok, ok, ok, ok, ok, ok
        write /a/x 02 -> ok
        write /b/y 03 -> ok
     """, 608, 11227, {2: None},
     ("folder / | folder /a | file /a/x 02 | folder /b | file /b/y 03", "ancestor / | ancestor /b | file /b/y 03", "", "",
      "ancestor / | folder /a | file /a/x 02 | folder /b | file /b/y 03"),
     ("folder 2 1  | folder 4 2 a | file 5 1 x 00ff | folder 14 3 b | file 15 2 y 01 | file 29 1 x 02 | file 30 2 y 03",
      "folder 2 1  | folder 4 2 a | file 5 1 x 00ff | folder 14 3 b | file 15 2 y 01 | file 30 2 y 03",
      "folder 2 1  | folder 4 2 a | file 5 1 x 00ff | folder 14 3 b | file 15 2 y 01", "",
      "folder 2 1  | folder 4 2 a | file 5 1 x 00ff | folder 14 3 b | file 15 2 y 01 | file 29 1 x 02 | file 30 2 y 03")),
)


def digest(image):
    return hashlib.sha256(image).hexdigest()


def session(text):
    """The lines and the replies of a session that is written as `LINE -> REPLY` a line, or `LINE -> REPLY, REPLY` and so on."""
    lines, replies = zip(*[row.strip().split(" -> ") for row in text.strip().splitlines()])
    return tuple("".join(part + "\n" for part in column).encode() for column in (lines, ", ".join(replies).split(", ")))


def replies_to_each(text):
    """How many replies each line of such a session has."""
    return [row.count(", ") + 1 for row in text.strip().splitlines()]


def rows(version):
    """The sessions of stores that are made with this version."""
    return [row for row in ROWS if version in row.digests]


def asked(row):
    """The command that does a session, and its input."""
    lines, _ = session(row.text)
    return ("upgrade", OWNER) if lines == b"upgrade\n" else ("run", OWNER + lines)


def is_refused(row, version):
    """Whether the program doesn't do a session over a store of this version."""
    return version != harness.MADE_VERSION and asked(row)[0] == "run"


def stores(check, version=harness.MADE_VERSION):
    """The store of this version that each session leaves, by its name, made by the writer, and by the program where it may: each answer is
    one of those that the check expects."""
    image, writer = made_fresh(check, version)
    made, writers = {"fresh": Store(image, [Bundle(0, OWNER_KEY)], version)}, {"fresh": writer}
    for row in rows(version):
        lines, replies = session(row.text)
        before, due = made[row.before], copy.deepcopy(writers[row.before])
        writers[row.name] = due
        told = due.session(FALLING[:row.drawn], lines.decode().splitlines())
        came = ("".join(line + "\n" for line in told).encode(), due.random, len(due.image), digest(due.image))
        check.expect(f"{row.name}, by the writer", came,
                     (replies, b"", row.size, row.digests[version] or digest(due.image)))
        command, typed = asked(row)
        came, left = check.run(before.image, typed, FALLING[:row.drawn], command)
        answer = (harness.NEEDS_UPGRADE, before.image) if is_refused(row, before.version) else ((0, replies, b""), due.image)
        check.expect(f"{row.name}, by {command}", (came, digest(left)), (answer[0], digest(answer[1])))
        holders = [store_reader.read_bundle(reply) for reply in replies.splitlines() if reply.startswith(b"holder")]
        made[row.name] = Store(due.image, before.bundles + holders, due.state.version)
    return made


def made_fresh(check, version):
    """The fresh store of this version, and its writer."""
    place, owner = check.make("store", SEED, version)
    image, writer = harness.read(place), Writer(SEED, version)
    for what, came in (("fresh", image), ("fresh, by the writer", writer.image)):
        check.expect(what, (owner, len(came), digest(came)), (OWNER, FRESH_SIZE, FRESH[version]))
    return image, writer
