"""The tools of cases/ and robustness/ that are cases too: they print what is wrong, and last what they tried."""

import re
import shutil
import subprocess
import sys

from runner.programs import LIMIT_SECONDS, TOP

# The tools of robustness/ that are cases too, and those of them that preload a library, which they build.
HOSTILE = ("refused", "devices", "again", "cut")
PRELOADING = ("refused", "devices", "again")

# The tools of cases/ whose cases count each by itself. Those of ALONE look at the clock: nothing runs beside them.
ALONE = ("scripts",)
COUNTING = ("library", "large", "witness_judge", "witnesses", "registers", "justice", "induction")

# The programs that a comparison with simulation needs.
SIMULATING = ("yosys", "iverilog", "vvp")

# How a tool says that it could not compare with another program, which is no fault.
NOTE = "no waveform was read back by "


def told(tool, *words, last=1, seconds=None):
    """The status of a tool, and the lines before its last ones, which are printed."""
    done = subprocess.run([TOP / tool, *words], capture_output=True, text=True, timeout=seconds, check=False)
    lines = done.stdout.splitlines() or [""] * (last - 1) + [done.stderr.strip()]
    print(f"{tool}: {': '.join(lines[-last:])}\n", end="", flush=True)
    return done.returncode, lines[:-last]


def faults_of(status, lines):
    """What a tool with this status and these lines finds wrong."""
    return [] if status == 0 else [*lines, f"status {status}"]


def documents():
    """What `cases/documents` finds wrong with what the documents name, and with their length."""
    return faults_of(*told("cases/documents", last=2, seconds=LIMIT_SECONDS))


def of_sources(tool):
    """What a tool of cases/ finds wrong with the sources: `words` old words, `ticks` steps of a budget and lists by a
    number."""
    return faults_of(*told(f"cases/{tool}", seconds=LIMIT_SECONDS))


def believed():
    """What `tools/trust` finds wrong with the lists of the definitions that are to be believed."""
    status, lines = told("tools/trust", seconds=LIMIT_SECONDS)
    return faults_of(status, [line for line in lines if line.startswith(("not found", "cited", "said otherwise"))])


def hostile(tool):
    """What a tool of robustness/ finds that hands the built programs a hostile system or hostile texts. Each line before
    its last one is a fault, whatever its status. Some need a C compiler."""
    if tool in PRELOADING and not shutil.which("cc"):
        return ["it could not run: there is no C compiler cc"]
    status, lines = told(f"robustness/{tool}")
    return faults_of(status, lines) or lines


def waveforms():
    """What `cases/waveform` finds wrong with the waveforms that it reads back."""
    status, lines = told("cases/waveform")
    print("".join(f"{line}\n" for line in lines if line.startswith(NOTE)), end="")
    return faults_of(status, [line for line in lines if not line.startswith(NOTE)])


def findings(*words):
    """What `cases/findings` finds wrong with what is made of other tools' findings."""
    return faults_of(*told("cases/findings", *words))


def recertified():
    """What `cases/recertified` finds wrong with certificates of version 3."""
    return faults_of(*told("cases/recertified"))


def of_abc():
    """What `cases/findings` finds wrong with ABC's invariants, or nothing at all (None) where ABC is not installed."""
    faults = findings("abc")
    return faults if shutil.which("berkeley-abc") else None


def quoted():
    """What the commands that documents quote do otherwise than these say."""
    return faults_of(*told("cases/quoted", last=2))


def simulated(tool, *words):
    """What a tool finds that compares circuits of SystemVerilog designs with simulation, or nothing at all (None) where
    a program that it needs is not installed."""
    faults = faults_of(*told(tool, *words))
    return faults if all(map(shutil.which, SIMULATING)) else None


def counted_by(tool):
    """How many cases of a tool of cases/ that counts them are as is wanted, and how many not."""
    done = subprocess.run([sys.executable, TOP / "cases" / tool], capture_output=True, text=True, check=False)
    lines = done.stdout.splitlines() or [done.stderr]
    print("".join(f"cases/{tool}: {line}\n" for line in lines), end="", flush=True)
    counted = re.fullmatch(r"(\d+) passed, (\d+) failed", lines[-1])
    well, other = map(int, counted.groups()) if counted else (0, 1)
    return well, max(other, int(done.returncode != 0))
