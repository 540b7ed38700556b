"""The cases of verdicts.tsv: small circuits, and what exhaustive search says of one of their properties."""

import pathlib
import tempfile

from runner.evidence import unbacked
from runner.programs import FOLDER, answered, words_of
from runner.tables import unescaped


def verdict_faults(name, verdict, circuit, options, scratch):
    """What is wrong with what `aigmc check` answers: another verdict, evidence that is not accepted, or, where
    bounded search found it, a run that is not the shortest."""
    path = scratch / "circuit.aag"
    path.write_bytes(circuit)
    command = f"aigmc check {path} -p {name} {options}"
    status, printed = answered(words_of(command, scratch))
    if status != (0 if verdict == "safe" else 1):
        return [f"status {status}"]
    steps = verdict.partition(" ")[2]
    if steps and "ic3" not in options and len(printed.splitlines()) != int(steps) + 5:
        return [f"{printed!r} is not the shortest run"]
    return unbacked({"command": command}, status, printed, scratch)


def is_well(line):
    """Whether a line is answered so by all engines in turn and by IC3 alone; else what is wrong is printed."""
    name, verdict, text = line.split("\t")
    circuit = unescaped(text)
    with tempfile.TemporaryDirectory() as folder:
        scratch = pathlib.Path(folder)
        faults = verdict_faults(name, verdict, circuit, "", scratch)
        faults += [f"IC3: {it}" for it in verdict_faults(name, verdict, circuit, "--engine ic3", scratch)]
    print("".join(f"{line!r}: {fault}\n" for fault in faults), end="")
    return not faults


def verdicts():
    """How many lines of verdicts.tsv are answered so by all engines in turn and by IC3 alone, and how many not."""
    found = [is_well(line) for line in (FOLDER / "verdicts.tsv").read_text(encoding="utf-8").splitlines()]
    return found.count(True), found.count(False)
