"""Calls of cryptree-folder, with what each takes."""
import os
import subprocess
import sys
import tempfile
import time

TOP = os.path.dirname(os.path.dirname(os.path.abspath(__file__)))
FRONT = os.path.join(TOP, "tools", "cryptree-folder")


class Took:
    """What a call took: seconds by the clock and of processors, the most memory of a process, what it printed and said, and its status."""

    def __init__(self, room, program, *words, store="store"):
        began = time.monotonic()
        with tempfile.TemporaryFile(dir=room) as printed, tempfile.TemporaryFile(dir=room) as said:
            process = subprocess.Popen([FRONT, os.path.join(room, store), *words], env=os.environ | {"CRYPTREE": program, "HOME": room},
                                       stdout=printed, stderr=said)
            _, status, used = os.wait4(process.pid, 0)
            self.clock, self.own, self.memory = time.monotonic() - began, used.ru_utime + used.ru_stime, used.ru_maxrss // 1024
            printed.seek(0), said.seek(0)
            self.printed, self.said = printed.read().decode(), said.read().decode()
        process.returncode = self.status = os.waitstatus_to_exitcode(status)
        print(f"{words[0]}: status {self.status}, {self} {self.said}", file=sys.stderr)

    def __str__(self):
        return f"{self.clock:.1f} s ({self.own:.1f}), {self.memory:,} MB"
