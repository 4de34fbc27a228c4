"""What a program asks of the system, as strace tells it: the files that it opened, and then in their order what it drew, wrote, synced,
printed and said. Whatever else it asked for is odd, but for memory and what every start asks for."""
import re
from collections import namedtuple

STRACE = ["strace", "-f", "-xx", "-s", "1000000", "-o"]
LINE = re.compile(r"(?:\d+ +)?(\w+)\((.*)\) += (-?\d+|0x[0-9a-f]+|\?)(?: (E[A-Z0-9]+) .*| .*)?")
ENDED = re.compile(r"(?:\d+ +)?(\+\+\+|---) .*")

# a start: the loader maps the program's libraries, and then the runtime sets broken pipes aside
LOADS = re.compile(rb"/etc/ld\.so\.(cache|preload)|/(usr/)?lib(64)?/([A-Za-z0-9_.-]+/)*[A-Za-z0-9_+-]+\.so[.0-9]*")
STARTS = frozenset("""access arch_prctl brk close execve fstat getrandom mmap mprotect munmap newfstatat openat pread64 prlimit64 read
                      rseq set_robust_list set_tid_address""".split())
# flags of an opening that change nothing of what is read or written
HARMLESS = {"O_CLOEXEC", "O_NOCTTY", "O_LARGEFILE"}
STREAMS = {0: "input", 1: "output", 2: "errors"}

Call = namedtuple("Call", "name words answer fault")
Opened = namedtuple("Opened", "path flags mode fault", defaults=("", ""))
Taken = namedtuple("Taken", "before count fault printed")  # of the input: bytes taken before, and in this read; bytes printed before it


def words_of(text):
    """The words of a call, parted at the commas that are in no bracket. Strings are told in hexadecimal, so they have none."""
    words, depth, begun = [], 0, 0
    for place, letter in enumerate(text):
        depth += letter in "{[("
        depth -= letter in "}])"
        if letter == "," and depth == 0:
            words.append(text[begun:place].strip())
            begun = place + 1
    return words + [text[begun:].strip()]


def calls_of(log):
    """The calls of a log, from the last start of a program on. A line of another form is a call of the name `?`."""
    calls = []
    with open(log) as lines:
        for line in map(str.rstrip, lines):
            told = LINE.fullmatch(line)
            if told and told[1] == "execve" and told[3] == "0":
                calls = []
            if told:
                calls.append(Call(told[1], told[2], None if told[3] == "?" else int(told[3], 0), told[4] or ""))
            elif not ENDED.fullmatch(line):
                calls.append(Call("?", line, None, ""))
    return calls


def text_in(word):
    """The bytes of a string, and none where it isn't told."""
    told = re.fullmatch(r'"((?:\\x[0-9a-f]{2})*)"', word)
    return bytes.fromhex(told[1].replace("\\x", "")) if told else b""


class Deeds:
    """What a run did, whose words name these two files. What was merged in `order` is what followed at once: draws that asked for what
    was still wanting, writes that went on, pieces of one text."""

    def __init__(self, log, store, random):
        self.store, self.random = store.encode(), random.encode()
        self.files = dict(STREAMS)
        self.opened, self.order, self.takes, self.odd = [], [], [], []
        self.drawn, self.printed, self.status, self.size, self.looks_at_time = b"", 0, None, None, False
        calls = calls_of(log)
        behind = next((n for n, call in enumerate(calls) if call.words.startswith("SIGPIPE, {sa_handler=SIG_IGN")), len(calls) - 1)
        for call in calls[:behind]:
            if not is_of_start(call):
                self.odd.append(call)
        for call in calls[behind + 1:]:
            if not getattr(self, "do_" + call.name, self.do_what_is_odd)(call, *words_of(call.words)):
                self.odd.append(call)

    def do_what_is_odd(self, call, *words):
        return False

    def file_of(self, word):
        return self.files.get(int(word))

    def then(self, *deed):
        """Puts a deed behind the others, or together with the last one."""
        last = self.order[-1] if self.order else None
        if last and last[0] == deed[0] == "drew" and [type(last[2]), type(deed[2])] == [int, int] and deed[1] == last[1] - last[2]:
            self.order[-1] = "drew", last[1], last[2] + deed[2]
        elif last and last[0] == deed[0] == "wrote" and deed[1] == last[1] + len(last[2]):
            self.order[-1] = "wrote", last[1], last[2] + deed[2]
        elif last and last[0] == deed[0] in ("printed", "said"):
            self.order[-1] = deed[0], last[1] + deed[1]
        else:
            self.order.append(deed)
        return True

    # files

    def do_openat(self, call, folder, path, flags, mode=""):
        self.opened.append(Opened(text_in(path), frozenset(flags.split("|")) - HARMLESS, mode, call.fault))
        if not call.fault:
            self.files[call.answer] = "store" if text_in(path) == self.store else "random" if text_in(path) == self.random else "other"
        return folder == "AT_FDCWD"

    def do_close(self, call, file):
        known = self.files.pop(int(file), None) is not None
        if int(file) in STREAMS:  # it was closed at the start, and the number went to a file
            self.files[int(file)] = STREAMS[int(file)]
        return known

    def do_fcntl(self, call, file, what, least="0"):
        self.files[call.answer] = self.file_of(file)
        return what == "F_DUPFD_CLOEXEC" and int(least) > max(STREAMS)

    def do_read(self, call, file, data, asked):
        if self.file_of(file) == "input":
            before = sum(take.count for take in self.takes)
            self.takes.append(Taken(before, 0 if call.fault else call.answer, call.fault, self.printed))
            return True
        if call.fault:
            return self.file_of(file) == "random" and self.then("drew", int(asked), call.fault)
        self.drawn += text_in(data)
        return self.file_of(file) == "random" and self.then("drew", int(asked), call.answer)

    def do_write(self, call, file, data, count):
        deed = {"output": "printed", "errors": "said"}.get(self.file_of(file))
        if call.fault:
            return deed is not None and self.then("not " + deed, call.fault)
        self.printed += call.answer if deed == "printed" else 0
        return deed is not None and self.then(deed, text_in(data)[:call.answer])

    # the store

    def do_pread64(self, call, file, data, asked, place):
        return self.file_of(file) == "store" and self.size is not None and int(place) + int(asked) <= self.size

    def do_pwrite64(self, call, file, data, count, place):
        if self.file_of(file) != "store" or self.size is None or int(place) > self.size:
            return False
        if call.fault:
            return self.then("not written", int(place), text_in(data), call.fault)
        self.size = max(self.size, int(place) + call.answer)
        return self.then("wrote", int(place), text_in(data)[:call.answer])

    def do_fsync(self, call, file):
        return self.file_of(file) == "store" and self.then("not synced" if call.fault else "synced")

    def do_statx(self, call, file, path, flags, mask, told):
        size = re.search(r"st(?:x)?_size=(\d+)", told)
        self.size = int(size[1]) if size else 0  # a device has none
        return self.file_of(file) == "store" and text_in(path) == b"" and "AT_EMPTY_PATH" in flags

    def do_newfstatat(self, call, file, path, told, flags):
        return self.do_statx(call, file, path, flags, "", told)

    def do_fstat(self, call, file, told):
        return self.do_statx(call, file, '""', "AT_EMPTY_PATH", "", told)

    # what touches nothing: memory, whether a stream is a terminal, what the time is, the end

    def do_mmap(self, call, address, size, may, flags, file, place):
        return file == "-1" and "MAP_ANONYMOUS" in flags and "PROT_EXEC" not in may

    def do_mprotect(self, call, address, size, may):
        return "PROT_EXEC" not in may

    def do_brk(self, call, *words):
        return True

    do_munmap = do_mremap = do_madvise = do_brk

    def do_getrandom(self, call, data, count, flags):
        """The allocator of the C library draws a mark of its own."""
        return (count, flags) == ("8", "GRND_NONBLOCK")

    def do_ioctl(self, call, file, what, told=""):
        return self.file_of(file) in ("output", "errors") and what == "TCGETS"

    def do_clock_gettime(self, call, clock, told):
        self.looks_at_time = True
        return clock == "CLOCK_MONOTONIC"

    def do_exit_group(self, call, status):
        self.status = int(status)
        return True


def is_of_start(call):
    """Whether every start of a program that is linked with the C library may ask for this."""
    words = words_of(call.words)
    if call.name == "openat":
        return "O_RDONLY" in words[2].split("|") and LOADS.fullmatch(text_in(words[1])) is not None
    return call.name in STARTS
