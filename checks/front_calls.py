"""Calls of tools/cryptree-folder, as checks of it make them."""
import os
import subprocess
import time

FRONT = os.path.join(os.path.dirname(os.path.dirname(os.path.abspath(__file__))), "tools", "cryptree-folder")


def keys_of(check):
    return os.path.join(check.folder, "keys")


def started(check, *words, keys=None, program=None, with_front=FRONT):
    """The front end at work with these words, STORE the first of them, over the check's program."""
    return subprocess.Popen([with_front, *words, "--keys", keys or keys_of(check)], env=os.environ | {"CRYPTREE": program or check.program},
                            stdin=subprocess.PIPE, stdout=subprocess.PIPE, stderr=subprocess.PIPE)


def front(check, *words, typed=b"", **how):
    """How the front end ends with these words: its status, what it prints and what it says."""
    with started(check, *words, **how) as process:
        printed, said = process.communicate(typed)
    return process.returncode, printed, said


def expect_told(check, what, came, status, *parts):
    """That it ended with this status, said one line, and that this line has each of these parts."""
    found, _, said = came
    missing = [part for part in parts if part.encode() not in said]
    check.expect(what, (found, len(said.splitlines()), missing or said and b""), (status, 1, b""))


class Paused:
    """A program that stands in for the proved one, which it is before or behind a pause; `go` ends the pause."""

    def __init__(self, check, name, form):
        self.at, self.gone = (os.path.join(check.folder, f"{name}.{part}") for part in ("at", "go"))
        pause = f'touch "{self.at}"; while [ ! -e "{self.gone}" ]; do sleep 0.05; done'
        self.path = program_that(check, name, form.format(pause=pause, program=f'"{check.program}" "$@"'))

    def killed_at(self, process):
        """Kills the front end when its program is at the pause."""
        while not os.path.exists(self.at):
            time.sleep(0.01)
        process.kill()
        process.wait()

    def go(self):
        with open(self.gone, "w"):
            pass


def program_that(check, name, text):
    """A program of these lines of shell that stands in for the proved one; $1 is STORE, $3 the command. Of heads the proved
    one is asked."""
    return shell(check, name, f'case $3 in head|prove|check) exec "{check.program}" "$@" ;; esac\n{text}')


def shell(check, name, text):
    """A program of these lines of shell."""
    path = check.put(name, b"#!/bin/sh\n" + text.encode() + b"\n")
    os.chmod(path, 0o700)
    return path
