"""All cases, and what they come to."""

import concurrent.futures
import os

from runner.layouts import round_trips
from runner.little import deep_chain, deep_cycle, endless
from runner.sources import breaches, explanations
from runner.tables import is_due, table
from runner.texts import texts
from runner.tools import (
    ALONE,
    COUNTING,
    HOSTILE,
    believed,
    counted_by,
    documents,
    findings,
    hostile,
    of_abc,
    of_sources,
    quoted,
    recertified,
    simulated,
    waveforms,
)
from runner.verdicts import verdicts
from runner.worked import worked_cases


def further_cases():
    """The cases that are no lines of a table: a function of each says what is wrong in it, or None where it was
    skipped."""
    found = {f"robustness/{tool}": lambda tool=tool: hostile(tool) for tool in HOSTILE}
    found |= {"the witness of refused memory": breaches, "a deep chain": deep_chain, "a deep cycle": deep_cycle}
    found |= {"explain": explanations, "evidence that never ends": endless, "documents": documents}
    found |= {"words": lambda: of_sources("words"), "steps of a budget": lambda: of_sources("ticks")}
    found |= {"definitions to believe": believed, "quoted commands": quoted, "waveforms": waveforms}
    found |= {"other tools' findings": findings, "ABC's invariants": of_abc}
    found |= {"certificates of version 3": recertified}
    found |= {"cases/simulated": lambda: simulated("cases/simulated")}
    found |= {"robustness/verilog": lambda: simulated("robustness/verilog", "20")}
    return found


def side_by_side(functions):
    """What the functions answer, in their order: as many run at a time as there are processors."""
    with concurrent.futures.ThreadPoolExecutor(os.cpu_count()) as pool:
        return list(pool.map(lambda function: function(), functions))


def judged(further):
    """How many of these cases are well, and how many not. What is wrong is printed, and last what was skipped."""
    skipped = [name for name, faults in further.items() if faults is None]
    tried = {name: faults for name, faults in further.items() if faults is not None}
    lines = [f"{name}: {fault}\n" for name, faults in tried.items() for fault in faults]
    print("".join(lines), end="")
    print(f"{len(skipped)} skipped{': ' if skipped else ''}{', '.join(skipped)}")
    other = sum(map(bool, tried.values()))
    return len(tried) - other, other


def main():
    """Runs all cases. The status is 0 only where each part had cases and nothing failed."""
    cases = table() + table("standard.tsv")
    due = [case for case in cases if is_due(case)]
    parts = [worked_cases(due)]
    print(f"{len(cases) - len(due)} cases wait for programs that are not built yet")
    parts += [round_trips(), texts(), verdicts(), *map(counted_by, ALONE)]
    further = further_cases()
    counting = [lambda tool=tool: counted_by(tool) for tool in COUNTING]
    found = side_by_side([*further.values(), *counting])
    parts += [judged(dict(zip(further, found))), *found[len(further) :]]
    passed, failed = map(sum, zip(*parts))
    print(f"{passed} passed, {failed} failed")
    return 1 if failed or not all(well for well, _ in parts) else 0
