"""What the benches measure of one command: time, instructions, calls, memory, syncs."""
import fcntl
import os
import re
import shutil
import subprocess
import tempfile
import time

PIPE = 4096


def seconds(words, typed, tries):
    """The least time of so many runs."""
    took = []
    for _ in range(tries):
        start = time.monotonic()
        subprocess.run(words, input=typed, check=True, stdout=subprocess.DEVNULL)
        took.append(time.monotonic() - start)
    return min(took)


def instructions(words, typed, status=0):
    """How many instructions a command takes that ends with this status, and None where no valgrind tells."""
    if not shutil.which("valgrind"):
        return None
    counting = ["valgrind", "--tool=cachegrind", "--cache-sim=no", "--cachegrind-out-file=/dev/null"]
    done = subprocess.run(counting + words, input=typed, stdout=subprocess.DEVNULL, stderr=subprocess.PIPE)
    if done.returncode != status:
        raise subprocess.CalledProcessError(done.returncode, words, stderr=done.stderr)
    return int(re.search(rb"I\s+refs:\s+([0-9,]+)", done.stderr).group(1).replace(b",", b""))


def calls(words, typed, wanted):
    """By callgrind: for each name of a function its calls and the instructions in it alone, and the instructions in all."""
    with tempfile.TemporaryDirectory() as folder:
        told = os.path.join(folder, "calls")
        counting = ["valgrind", "--tool=callgrind", f"--callgrind-out-file={told}", *words]
        said = subprocess.run(counting, input=typed, check=True, stdout=subprocess.DEVNULL, stderr=subprocess.PIPE).stderr
        names, counts, within = {}, dict.fromkeys(wanted, 0), dict.fromkeys(wanted, 0)
        caller = callee = ""
        with open(told) as file:
            for line in file:
                named = re.match(r"(c?)fn=\((\d+)\)(?: (.*))?", line)
                if named:
                    name = names.setdefault(named[2], named[3])
                    caller, callee = (caller, name) if named[1] else (name, callee)
                elif line.startswith("calls="):
                    for name in wanted:
                        counts[name] += int(line[6:].split()[0]) if name in callee else 0
                    next(file)  # What the call took stands in a line of its own.
                elif re.match(r"[+*\d-]\S* \d+$", line):
                    for name in wanted:
                        within[name] += int(line.split()[1]) if name in caller else 0
    return counts, within, int(re.search(rb"Collected : (\d+)", said).group(1))


def peak(words, typed, waits):
    """The most memory that a command had, in bytes, when it began to print (the pipe is full before) or `waits` for a line."""
    taken, given = os.pipe()
    fcntl.fcntl(given, fcntl.F_SETPIPE_SZ, PIPE)
    os.write(given, bytes(PIPE))
    with subprocess.Popen(words, stdin=subprocess.PIPE, stdout=given) as child:
        os.close(given)
        child.stdin.write(typed)
        child.stdin.flush()
        if not waits:
            child.stdin.close()
        wait_until_it_sleeps(child.pid)
        most = most_memory(child.pid)
        if not child.stdin.closed:
            child.stdin.close()
        while os.read(taken, 1 << 16):
            pass
    os.close(taken)
    return most


def peak_of_lines(words, typed):
    """The most memory that a command had, in bytes, when it has answered all of these lines and waits for more; what it prints goes nowhere."""
    with subprocess.Popen(words, stdin=subprocess.PIPE, stdout=subprocess.DEVNULL) as child:
        child.stdin.write(typed)
        child.stdin.flush()
        wait_until_it_sleeps(child.pid)
        most = most_memory(child.pid)
        child.stdin.close()
    return most


def most_memory(pid):
    with open(f"/proc/{pid}/status") as file:
        return int(re.search(r"VmHWM:\s+(\d+) kB", file.read()).group(1)) * 1024


def held(words, typed):
    """The most bytes that a command had of the system at once, its code and its stack among them, as massif counts them: the same number
    each time, whatever else the machine does and has in its caches."""
    with tempfile.TemporaryDirectory() as folder:
        told = os.path.join(folder, "held")
        watching = ["valgrind", "--tool=massif", "--pages-as-heap=yes", "--peak-inaccuracy=0.0", f"--massif-out-file={told}"]
        subprocess.run(watching + words, input=typed, check=True, stdout=subprocess.DEVNULL, stderr=subprocess.PIPE)
        with open(told) as file:
            return max(int(line[len("mem_heap_B="):]) for line in file if line.startswith("mem_heap_B="))


def wait_until_it_sleeps(pid):
    """Returns when the process has used no processor for a quarter of a second."""
    before, same = None, 0
    while same < 5:
        time.sleep(0.05)
        with open(f"/proc/{pid}/stat") as file:
            fields = file.read().rsplit(")", 1)[1].split()
        used = fields[0], fields[11], fields[12]
        same = same + 1 if used == before and used[0] == "S" else 0
        before = used


def syncs(words, typed):
    """How often a command syncs, and None where there is no strace."""
    if not shutil.which("strace"):
        return None
    with tempfile.NamedTemporaryFile("r") as log:
        tracing = ["strace", "-f", "-e", "trace=fsync,fdatasync", "-o", log.name]
        subprocess.run(tracing + words, input=typed, check=True, stdout=subprocess.DEVNULL)
        return sum("sync(" in line for line in log)
