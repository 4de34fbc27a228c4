"""Which crate stands on which, how long each is, and which chain of crates takes longest: for tools/prove-program and bench/gate."""
import os

TOP = os.path.dirname(os.path.dirname(os.path.abspath(__file__)))


def listed():
    """The line of each crate in crates.txt, and the crates that it uses."""
    with open(f"{TOP}/crates.txt") as file:
        rows = {line.partition(":")[0]: line for line in file if ":" in line and not line.startswith("#")}
    return rows, {name: [it for it in line.partition(":")[2].split() if it in rows] for name, line in rows.items()}


def lines(crate, part, ending):
    """How many lines of a kind a crate has."""
    found = 0
    for at, _, files in os.walk(f"{TOP}/crates/{crate}/{part}"):
        for name in files:
            if name.endswith(ending):
                with open(f"{at}/{name}") as file:
                    found += sum(1 for _ in file)
    return found


def cost(minutes, crates):
    return sum(minutes[it] for it in crates)


def chain(uses, minutes, name, known):
    """The crates that begin with this one and lead up, each using the one before it, of which the sum of minutes is the greatest.

    `known` keeps what was found, for the next call."""
    if name not in known:
        above = [chain(uses, minutes, it, known) for it in minutes if name in uses[it]]
        known[name] = [name, *max(above, key=lambda it: cost(minutes, it), default=[])]
    return known[name]
