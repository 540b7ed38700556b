"""The crates of crates.txt: which stand on which, what each costs, and how long they take side by side."""

import graphlib
import re

# A row of the table of docs/GATE.md, which tools/gate makes: a crate, and the processor minutes of its proof.
ROW = re.compile(r"^\| `(\w+)` \| *([\d.]+) *\|", re.MULTILINE)
WHOLE = re.compile(r"^\| \*\*All crates\*\* \| *([\d.]+) *\|", re.MULTILINE)

# How many seconds a minute of the table takes where nothing is known yet of the machine.
SECONDS_AT_FIRST = 60


def crates_of(text):
    """The crates of a crates.txt, each with those that it stands on, in its order."""
    pairs = [line.partition("#")[0].partition(":") for line in text.splitlines()]
    return {name.strip(): below.split() for name, colon, below in pairs if colon}


def needed_by(crates, names):
    """These crates and all that they stand on, in the order of crates.txt."""
    needed, left = set(), list(names)
    while left:
        name = left.pop()
        if name in crates and name not in needed:
            needed.add(name)
            left += crates[name]
    return {name: below for name, below in crates.items() if name in needed}


def turned(crates):
    """Each crate with those that stand on it."""
    return {name: [above for above, below in crates.items() if name in below] for name in crates}


def chains(crates, costs):
    """Of each crate the dearest chain of crates that ends with it: what it costs, and its crates."""
    found = {}
    for name in graphlib.TopologicalSorter(crates).static_order():
        if name in crates:
            cost, chain = max((found[below] for below in crates[name] if below in found), default=(0, ()))
            found[name] = cost + costs[name], (*chain, name)
    return found


def span(crates, costs, lanes):
    """How long the crates take, so many side by side: each begins once those that it stands on are through, and those
    with the dearest chain behind them go first."""
    behind = chains(turned(crates), costs)
    left = sorted(crates, key=lambda name: -behind[name][0])
    clock, running, through = 0, [], set()
    while left or running:
        ready = [name for name in left if through >= crates.keys() & crates[name]]
        begun = ready[: lanes - len(running)]
        left = [name for name in left if name not in begun]
        running = sorted([*running, *((clock + costs[name], name) for name in begun)])
        (clock, name), *running = running
        through.add(name)
    return clock


def costs_of(table, sizes):
    """What the proof of each crate costs by a table of tools/gate. Those that it leaves out share the rest of its sum
    by their sizes. Nothing where it has no sum."""
    listed, whole = {name: float(minutes) for name, minutes in ROW.findall(table)}, WHOLE.search(table)
    if not whole:
        return {}
    rest = max(0.0, float(whole[1]) - sum(listed.values()))
    others = sum(size for name, size in sizes.items() if name not in listed) or 1
    return {name: listed.get(name, rest * size / others) for name, size in sizes.items()}


def seconds_left(crates, costs, progress, seconds, lanes):
    """How long the crates take that are not through yet, where this many seconds went by. `progress` has the crates
    that were proved meanwhile, those that were kept, and those that are begun, which count half."""
    proved, kept, begun = progress
    parts = {name: costs[name] / 2 if name in begun and name not in proved else costs[name] for name in crates}
    past = {name: below for name, below in crates.items() if name in proved or name in begun and name not in kept}
    rest = {name: below for name, below in crates.items() if name not in proved and name not in kept}
    gone = span(past, parts, lanes) if proved else 0
    return (seconds / gone if gone else SECONDS_AT_FIRST) * span(rest, parts, lanes)
