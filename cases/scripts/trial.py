"""What the cases of the scripts stand on: a scratch folder with the scripts as they are installed, circuits, and
calls."""

import csv
import os
import pathlib
import shutil
import signal
import subprocess
import time

TOP = pathlib.Path(__file__).resolve().parent.parent.parent
FILES = TOP / "cases" / "files"
PROGRAMS = {name: TOP / "crates" / name / "out" / name for name in ("aigmc", "aigcheck")}
SCRIPTS = ("aigmc-hwmcc", "check-all", "properties")
LIMIT_SECONDS = 120
SECONDS_TO_STOP = 8

# One latch that stays 0, and one that is set at the second time: the first property holds, the second does not.
HOLDS = "aag 1 0 1 0 0 1\n2 2\n2\n"
VIOLATED = "aag 1 0 1 0 0 1\n2 3\n2\n"
BOTH = "aag 2 0 2 0 0 2\n2 2\n4 5\n2\n4\nb0 stays, \"so\"\nb1 turns\n"

CASES = []


class Wrong(Exception):
    """What is wrong."""


class NotTried(Exception):
    """Why a case can't be tried here."""


def case(name):
    """Makes a function a case. It gets a scratch folder."""

    def noted(function):
        CASES.append((name, function))
        return function

    return noted


def expect(found, wanted, what):
    """Complains where something is not what is wanted."""
    if found != wanted:
        raise Wrong(f"{what}: {found!r}, and should be {wanted!r}")


def counter(bits, properties=1):
    """A circuit that takes longer than anybody waits: it counts where its input allows it, and all latches are set at
    last. Of three properties this is the second, and the others are never so."""
    gates, carry = [], 2
    latches = [2 * k + 4 for k in range(bits)]
    following = []

    def conjunction(one, other):
        gates.append((2 * (bits + 2 + len(gates)), one, other))
        return gates[-1][0]

    for latch in latches:
        following.append(conjunction(conjunction(latch, carry) ^ 1, conjunction(latch ^ 1, carry ^ 1) ^ 1))
        carry = conjunction(carry, latch)
    bad = latches[0]
    for latch in latches[1:]:
        bad = conjunction(bad, latch)
    lines = [f"aag {bits + 1 + len(gates)} 1 {bits} 0 {len(gates)} {properties}", "2"]
    lines += [f"{latch} {after}" for latch, after in zip(latches, following)]
    lines += [str(bad)] if properties == 1 else ["0", str(bad), "0"]
    return "\n".join([*lines, *(f"{left} {one} {other}" for left, one, other in gates)]) + "\n"


def held(properties):
    """A circuit with so many latches that stay 0, and a bad literal for each."""
    latches = [2 * k + 2 for k in range(properties)]
    lines = [f"{latch} {latch}" for latch in latches] + [str(latch) for latch in latches]
    return "\n".join([f"aag {properties} 0 {properties} 0 0 {properties}", *lines]) + "\n"


def make(path, text):
    """Makes a file."""
    path.write_bytes(text if isinstance(text, bytes) else text.encode())
    return path


def make_script(path, lines):
    """Makes a script of the shell."""
    make(path, f"#!/bin/sh\n{lines}\n").chmod(0o755)


class Done:
    """What a call has done."""

    def __init__(self, status, out, told):
        self.status, self.out, self.told = status, out, told

    def rows(self):
        """The rows of a table, without the seconds."""
        lines = self.out.decode(errors="surrogateescape").splitlines()
        return [(row["property"], row["verdict"], row["checked"]) for row in csv.DictReader(lines)]


def call(*words, cwd, **more):
    """A call that ended."""
    streams = {"stdin": subprocess.DEVNULL, "stdout": subprocess.PIPE, "stderr": subprocess.PIPE} | more
    done = subprocess.run(words, cwd=cwd, timeout=LIMIT_SECONDS, check=False, **streams)
    return Done(done.returncode, done.stdout, done.stderr)


class Place:
    """A folder with the scripts and programs as they are installed."""

    def __init__(self, folder):
        self.folder = folder
        self.bin = folder / "prefix" / "bin"
        self.bin.mkdir(parents=True)
        for name in SCRIPTS:
            shutil.copy(TOP / "bin" / name, self.bin)
        shutil.copytree(TOP / "share", folder / "prefix" / "share")
        for name, program in PROGRAMS.items():
            (self.bin / name).symlink_to(program)

    def circuit(self, text, name="circuit.aag"):
        """A circuit in the folder."""
        return make(self.folder / name, text)

    def wrap(self, name, lines):
        """Has a program do something first."""
        (self.bin / name).unlink()
        make_script(self.bin / name, f'{lines}\nexec {PROGRAMS[name]} "$@"')

    def unwrap(self, name):
        """Takes back what a program does first."""
        (self.bin / name).unlink()
        (self.bin / name).symlink_to(PROGRAMS[name])

    def call(self, script, *words, **more):
        """A call of a script, that ended."""
        return call(self.bin / script, *words, cwd=self.folder, **more)

    def check(self, *words, **more):
        """A call of check-all, that ended."""
        return self.call("check-all", "--out", "made", *words, **more)

    def begun(self, script, *words):
        """A call of a script that is under way, and the process of aigmc that it waits for."""
        streams = {"stdout": subprocess.PIPE, "stderr": subprocess.PIPE}
        running = subprocess.Popen([self.bin / script, *words], cwd=self.folder, **streams)
        try:
            return running, wait_for(lambda: searching(running.pid), "aigmc was not called")
        except Wrong:
            running.kill()
            running.wait()
            raise


def wait_for(asked, what):
    """Waits until something is so."""
    end = time.monotonic() + LIMIT_SECONDS / 4
    while time.monotonic() < end:
        found = asked()
        if found:
            return found
        time.sleep(0.02)
    raise Wrong(what)


def children(process):
    """The children of a process, and their names."""
    found = {}
    for path in pathlib.Path("/proc").glob("[0-9]*/stat"):
        try:
            name, _, rest = path.read_text(errors="replace").partition(" (")[2].rpartition(") ")
        except OSError:
            continue
        if int(rest.split()[1]) == process and rest[0] != "Z":
            found[int(path.parent.name)] = name
    return found


def searching(process):
    """The process of aigmc below another one."""
    return next((number for number, name in children(process).items() if name == "aigmc"), None)


def below(folder):
    """The processes that run in a folder or below it."""
    found = []
    for path in pathlib.Path("/proc").glob("[0-9]*/cwd"):
        try:
            inside = pathlib.Path(os.readlink(path))
        except OSError:
            continue
        if folder in (inside, *inside.parents):
            found.append(int(path.parent.name))
    return found


def is_there(process):
    """Whether there is a process that runs."""
    try:
        return pathlib.Path(f"/proc/{process}/stat").read_text().rpartition(") ")[2][0] != "Z"
    except OSError:
        return False


def stopped(place, number, script, *words):
    """What a call of a script did that got a signal while aigmc ran. Nothing of it is left then."""
    running, search = place.begun(script, *words)
    begun = time.monotonic()
    running.send_signal(number)
    out, told = running.communicate(timeout=LIMIT_SECONDS)
    expect(time.monotonic() - begun < SECONDS_TO_STOP, True, f"whether it stops within {SECONDS_TO_STOP} seconds")
    if number != signal.SIGKILL:
        expect([is_there(search), *below(place.folder)], [False], "what goes on")
    expect(b"Traceback" in told, False, "a traceback")
    expect(running.returncode, -number, "the status")
    return search, out, told
