"""What stands in the sources and in the tables of the documents: the rule of the witnesses, and what faults mean."""

import itertools
import re

from runner.programs import CRATES, TOP, answered, executable

# The sources that give C their calls, by an attribute that says `unsafe` and marks no unsafe code.
EXPORTING = ("aigcheck_c/src/lib.rt",)

# What the sources may name, each in these files alone.
RULES = {
    r"\bRefused::new\b|\bmade_here\b": ("base/src/grow.rt", "base/src/refused.rt"),
    r"\ball_taken\b": ("solver/src/full.rt",),
    r"\bunsafe\b": (),
}


def breaches_in(name, text):
    """Where a source of this name breaks the rule of the witnesses."""
    code = re.sub(r"//.*", "", text)
    if name in EXPORTING:
        code = code.replace("#[unsafe(no_mangle)]", "")
    found = [f"{name}: {rule}" for rule, allowed in RULES.items() if name not in allowed and re.search(rule, code)]
    if re.search(r"From<Alloc\w+(<\w+>)?>", code) and "Refused" in code:
        found.append(f"{name}: an error of std becomes one with a witness")
    return found


def breaches():
    """Where a source breaks the rule of the witnesses: `Refused` is made in crates/base/src/grow.rt alone, no crate
    above base turns std's errors of allocation into one, `Full` is made in crates/solver/src/full.rt alone, and none
    has unsafe code."""
    found = []
    for source in sorted(CRATES.glob("*/src/**/*.rt")):
        found += breaches_in(str(source.relative_to(CRATES)), source.read_text(encoding="utf-8"))
    return found


def explanations():
    """What `explain` of a program says otherwise than docs/faults.tsv, whose lines have a number, what it means and
    what to do."""
    rows = [line.split("\t") for line in (TOP / "docs" / "faults.tsv").read_text(encoding="utf-8").splitlines()]
    found = []
    for name, (number, meaning, remedy) in itertools.product(("aigmc", "aigcheck"), rows):
        status, printed = answered([executable(name), "explain", number])
        if (status, printed) != (0, f"{number}: {meaning}\n{remedy}\n".encode()):
            found.append(f"{name} explain {number}: {printed!r}")
    return found
