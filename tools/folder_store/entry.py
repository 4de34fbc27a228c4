"""The words of `cryptree-folder`, and the one place that turns faults into a line and a status."""
import argparse
import errno
import importlib
import os
import signal
import sys

from folder_store import VERSION
from folder_store.completion import Completion
from folder_store.faults import Fault, warn
from folder_store.store import Store

MODULES = ("sharing", "who", "put", "get", "looking", "copies", "heads", "bridge")     # each has add_commands
OPTIONS = {
    "--keys": {"metavar": "DIR", "help": "the key folder (~/.config/cryptree)"},
    "--as": {"metavar": "NAME", "dest": "holder", "help": "read with this holder's key, which is in the key folder"},
    "--key": {"metavar": "FILE", "help": "read with the key in this file"},
    "--no-wait": {"action": "store_true", "help": "end at once where another is at the store"},
    "--accept": {"action": "store_true", "help": "take the store as it is, even if it may be an older copy"},
    "--json": {"action": "store_true", "help": "print JSON"},
}


def common(is_default):
    """The options of every command; behind the command they have no defaults, so that one before it counts."""
    words = argparse.ArgumentParser(add_help=False, allow_abbrev=False)
    for name, form in OPTIONS.items():
        words.add_argument(name, **form, **({} if is_default else {"default": argparse.SUPPRESS}))
    return words


def parser():
    """The words of all commands."""
    words = argparse.ArgumentParser("cryptree-folder", parents=[common(True)], allow_abbrev=False,
                                    description="keeps folders in a cryptree store, for those who are granted them")
    words.add_argument("--version", action="version", version=f"cryptree-folder {VERSION}")
    words.add_argument("--completion", metavar="SHELL", action=Completion, choices=("bash", "zsh"),
                       help="print what bash or zsh reads to complete these words")
    words.add_argument("store", metavar="STORE", help="the store's file")
    commands = words.add_subparsers(metavar="COMMAND", required=True)
    words.commands = commands.choices

    def add(name, function, text):
        found = commands.add_parser(name, parents=[common(False)], allow_abbrev=False, help=text, description=text)
        found.set_defaults(do=function)
        return found

    for module in MODULES:
        importlib.import_module("folder_store." + module).add_commands(add)
    return words


def opened(words, writes, older=None):
    """The store that the words name, locked."""
    return Store.open(words.store, words.keys, writes, not words.no_wait, words.accept, older)


def stop(number, _):
    raise KeyboardInterrupt(f"signal {number}")


def main():
    """Does what the words say: 0 where all was done, 1 where it wasn't, 2 where the words don't say what."""
    os.umask(0o077)
    sys.stdout.reconfigure(errors="surrogateescape")
    for number in (signal.SIGTERM, signal.SIGHUP):
        signal.signal(number, stop)
    words = parser().parse_args()
    try:
        status = words.do(words) or 0
        sys.stdout.flush()
        return status
    except Fault as fault:
        warn(fault)
        return fault.status
    except KeyboardInterrupt:
        warn("stopped: what was answered before stands, do it again to finish it")
    except MemoryError:
        warn("there was no memory for it: free some, and do it again")
    except BrokenPipeError:
        sys.stdout = None
        warn("standard output was closed before all was printed")
    except OSError as error:
        warn(told(error))
    return 1


def told(error):
    """What the system refused, and what to do."""
    what = f"{error.filename}: " if error.filename is not None else ""
    if error.errno in (errno.ENOSPC, errno.EDQUOT):
        return f"{what}the disk is full: make room, and do it again"
    return f"{what}{error.strerror or error}: see to it, and do it again"
