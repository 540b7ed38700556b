"""What tools/witness_judge does with the pairs of pairs.py, by solvers and where there is none."""

import itertools
import os
import pathlib
import shutil
import signal
import subprocess
import sys
import time

from pairs import FOLLOWS, PAIRS, REFUSED, SOLVERS_THAT_FAIL

FOLDER = pathlib.Path(__file__).resolve().parent
JUDGE = FOLDER.parent.parent / "tools" / "witness_judge"
STAND_IN = FOLDER / "solver.py"
SOLVERS = ("cadical", "kissat", "minisat", "picosat")
LIMIT_SECONDS = 60
SECONDS_TO_END = 10


def make(path, text, mode=0o644):
    """Makes a file."""
    path.write_bytes(text if isinstance(text, bytes) else text.encode())
    path.chmod(mode)
    return path


def begun(folder, model, witness, path):
    """The judge over a pair, where its solver is looked for in this path."""
    words = [sys.executable, JUDGE, make(folder / "model", model), make(folder / "witness", witness)]
    environment = os.environ | {"PATH": str(path), "TMPDIR": str(folder)}
    streams = {"stdout": subprocess.PIPE, "stderr": subprocess.PIPE, "text": True}
    return subprocess.Popen(words, cwd="/", env=environment, **streams)


def ended(process):
    """What the judge has done."""
    try:
        printed, told = process.communicate(timeout=LIMIT_SECONDS)
    except subprocess.TimeoutExpired:
        process.kill()
        printed, told = process.communicate()
    return subprocess.CompletedProcess(process.args, process.returncode, printed, told)


def judged(folder, model, witness, path):
    """What the judge does with a pair, where its solver is looked for in this path."""
    return ended(begun(folder, model, witness, path))


def is_alive(process):
    """Whether a process goes on that was killed just now. It may take a while to end; a zombie has ended."""
    stat, end = pathlib.Path("/proc", process, "stat"), time.monotonic() + SECONDS_TO_END
    while time.monotonic() < end:
        try:
            state = stat.read_text().rpartition(")")[2].split()[0]
        except OSError:
            return False
        if state == "Z":
            return False
        time.sleep(0.05)
    return True


def fault_of_stop(folder, number):
    """What is wrong where the judge is stopped by a signal while its solver works, or nothing."""
    place = failing(folder, f"endless {number}", f"echo $$ > {folder}/{int(number)}; exec /bin/sleep {LIMIT_SECONDS}")
    process, told = begun(folder, FOLLOWS, FOLLOWS, place), make(folder / str(int(number)), "")
    end = time.monotonic() + LIMIT_SECONDS
    while not told.read_text().endswith("\n") and time.monotonic() < end:
        time.sleep(0.05)
    process.send_signal(number)
    done = ended(process)
    left = list(folder.glob("witness-judge-*")) + ["the solver"] * is_alive(told.read_text().strip())
    is_so = (done.returncode, done.stderr, left) == (-number, "witness_judge: stopped\n", [])
    return None if is_so else f"status {done.returncode}, {done.stderr!r}, left: {left}"


def fault_of_pair(pair, folder, solver):
    """What the judge says otherwise of a pair, or nothing."""
    done = judged(folder, pair.model, pair.witness, pathlib.Path(solver).parent)
    lines = done.stdout.splitlines() or [""]
    wanted, status = (f"yes, by {solver}", 0) if pair.wanted == "yes" else (pair.wanted, 1)
    if (lines[-1], done.returncode) != (wanted, status) or len(lines) < 7:
        return f"status {done.returncode}, {lines[-1]!r} for {wanted!r}, {done.stderr.strip()}"
    missing = [line for line in pair.lines if line not in lines]
    return f"no line {missing[0]!r} in {done.stdout!r}" if missing else None


def fault_of_refusal(done, told):
    """What is wrong where nothing can be judged, or nothing."""
    is_so = done.returncode == 3 and "yes" not in done.stdout and done.stderr.count("\n") == 1
    is_so = is_so and done.stderr.startswith("witness_judge: ") and done.stderr.endswith(f"{told}\n")
    return None if is_so else f"status {done.returncode}, {done.stdout!r}, {done.stderr!r} for {told!r}"


def own_solver(folder, name):
    """The solver of solver.py, by the name of another, in a folder of its own."""
    own = folder / f"own-{name}"
    own.mkdir()
    return make(own / name, f"#!{sys.executable} -ISE\n{STAND_IN.read_text()}", 0o755)


def solvers(folder):
    """The solver of solver.py, and those that are installed, each in a folder of its own."""
    found = [own_solver(folder, "cadical")]
    for name in filter(shutil.which, SOLVERS):
        (folder / name).mkdir()
        (folder / name / name).symlink_to(shutil.which(name))
        found.append(folder / name / name)
    return found


def failing(folder, name, lines):
    """The folder of a solver that fails."""
    place = folder / name.replace(" ", "-")
    place.mkdir()
    if lines is not None:
        make(place / "cadical", f"#!/bin/sh\n{lines}\n", 0o755)
    return place


def by_solvers(folder):
    """The name of each pair by each solver, and what is wrong with it, or nothing. Minisat's words have a few pairs."""
    known, minisat = solvers(folder), own_solver(folder, "minisat")
    tried = [*itertools.product(known, PAIRS), *itertools.product([minisat], PAIRS[:6])]
    return [(f"{pair.name}, by {it.parent.name}", fault_of_pair(pair, folder, it)) for it, pair in tried]


def refusals(folder):
    """The name of each pair that is refused, and of each solver that fails, and what is wrong with it, or nothing."""
    solver = own_solver(folder, "kissat").parent
    pairs = [(name, judged(folder, model, witness, solver), told) for name, model, witness, told in REFUSED]
    fails = [(name, failing(folder, name, lines), told) for name, lines, told in SOLVERS_THAT_FAIL]
    pairs += [(name, judged(folder, FOLLOWS, FOLLOWS, place), told) for name, place, told in fails]
    return [(name, fault_of_refusal(done, told)) for name, done, told in pairs]


def stops(folder):
    """The name of each signal that stops the judge, and what is wrong with how it does, or nothing."""
    return [(number.name, fault_of_stop(folder, number)) for number in (signal.SIGINT, signal.SIGTERM)]
