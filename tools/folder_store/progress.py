"""How far a command is, told on standard error where that is a terminal, once a second from the first second on."""
import sys
import threading


class Progress:
    """One line while its `with` lasts, which is blanked at the end: what is done, and how many of how many."""

    def __init__(self, what, count=None):
        self.what, self.count, self.done = what, count, 0
        self.ended, self.thread = threading.Event(), None

    def __enter__(self):
        if sys.stderr.isatty():
            self.thread = threading.Thread(target=self.tell, daemon=True)
            self.thread.start()
        return self

    def __exit__(self, *_):
        self.ended.set()
        if self.thread:
            self.thread.join()

    def tell(self):
        told = False
        while not self.ended.wait(1):
            told = True
            of = f" of {self.count:,}" if self.count is not None else ""
            numbers = f": {self.done:,}{of}" if self.done or of else ""
            print(f"\r\x1b[K{self.what}{numbers}", end="", file=sys.stderr, flush=True)
        if told:
            print("\r\x1b[K", end="", file=sys.stderr, flush=True)


def followed(items, what, count=None):
    """The same items, one after another, while it's told how many were taken."""
    with Progress(what, count) as progress:
        for item in items:
            yield item
            progress.done += 1
