"""The worked cases of cases.tsv and standard.tsv: a command each, and what it has to do."""

import pathlib
import re
import subprocess
import tempfile

from runner.evidence import by_ic3, unaccepted, unbacked, unshown
from runner.programs import FOLDER, run, words_of
from runner.tables import text_of


def untimed(text):
    """What a program put, with 0 for the seconds and steps of lines of JSON and without what engines counted, also
    where it was cut."""
    return re.sub(rb'("statistics":\{)[^}\n]*', rb"\g<1>", re.sub(rb'("(?:seconds|steps)":)[\d.]+', rb"\g<1>0", text))


def refused_clauses(text):
    """What is wrong where lines of JSON count clauses or cores that were learned and refused, or don't count them."""
    counts = re.findall(rb'"(\w+): refused (?:learned clauses|cores)":(\d+)', text)
    if any(count != b"0" for _, count in counts):
        return [f"a learned clause or a core was refused: {counts!r}"]
    engines = set(re.findall(rb'"(bmc|ic3|corr|scorr|kind): decisions":', text))
    return [] if engines == {engine for engine, _ in counts} else [f"refused clauses are not counted: {text!r}"]


def is_json(command):
    """Whether the command puts lines of JSON."""
    return "--json" in command.split()


def differences(case, done, scratch):
    """What the program put otherwise than the case says, or its status. Of a file that it made it puts the name alone."""
    found = untimed(done.stdout).replace(b"%b/OUT." % bytes(scratch), b"OUT."), done.stderr, done.returncode
    wanted = text_of(case["stdout"]), text_of(case["stderr"]), int(case["status"])
    parts = zip(("standard output", "standard error", "status"), found, wanted)
    return [f"{what} is {is_so!r}, and should be {due!r}" for what, is_so, due in parts if is_so != due]


def unsupported(case, done, scratch):
    """What is wrong with the evidence for the answer of `aigmc check` or `aigmc all`."""
    command, faults = case["command"], []
    if command.startswith("aigmc all") and done.returncode != 3:
        faults += unshown(case, done.returncode, done.stdout, scratch)
    if command.startswith("aigmc check"):
        faults += unbacked(case, done.returncode, done.stdout, scratch)
        if "--" not in command:
            faults += by_ic3(case, scratch)
    return faults


def unmade(case, scratch):
    """The files that the program did not make as the case says."""
    pairs = [] if case["made"] == "-" else [pair.split("=", 1) for pair in case["made"].split()]
    faults = []
    for name, wanted in pairs:
        path = scratch / name
        if not path.exists() or path.read_bytes() != (FOLDER / wanted).read_bytes():
            faults.append(f"{name} is not {wanted}")
    return faults


def faults_of(case, scratch):
    """What is wrong with what the program does."""
    command, _, given = case["command"].partition(" < ")
    try:
        with open(FOLDER / (given or "/dev/null"), "rb") as source:
            done = run(words_of(command, scratch), cwd=FOLDER, stdin=source)
    except (OSError, subprocess.TimeoutExpired) as error:
        return [str(error)]
    faults = differences(case, done, scratch) + refused_clauses(done.stdout)
    if not given and not is_json(command):
        faults += unsupported(case, done, scratch)
    if command.startswith(("aigmc certify", "aigmc recertify", "aigmc adopt-witness")):
        faults += unaccepted(case, done.returncode, scratch)
    return faults + unmade(case, scratch)


def is_well(case):
    """Whether the program does what the case says; else what is wrong is printed."""
    with tempfile.TemporaryDirectory() as scratch:
        faults = faults_of(case, pathlib.Path(scratch))
    print("".join(f"{case['name']}: {fault}\n" for fault in faults), end="")
    return not faults


def worked_cases(cases):
    """How many of the cases do what they say, and how many not."""
    well = sum(map(is_well, cases))
    return well, len(cases) - well
