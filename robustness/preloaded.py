"""The cases of cases/cases.tsv with a small C library preloaded (robustness/hostile), for `robustness/refused` and `robustness/devices`."""

import array
import collections
import contextlib
import os
import pathlib
import re
import struct
import subprocess
import sys

TOP = pathlib.Path(__file__).resolve().parent.parent
FOLDER = TOP / "cases"
sys.path.insert(0, str(FOLDER))

from runner.programs import words_of
from runner.tables import is_due, table

BEFORE = b"what was there before\n"
MOST = 1000
LIMIT_SECONDS = 120

# What a command, or a copy of it with the failure of that number, came to: its files' bytes by their names.
Ended = collections.namedtuple("Ended", "number returncode stdout stderr files")

# What hostile/each.h tells of a copy, and of a file.
HEAD = struct.Struct("5l")
FILE = struct.Struct("64sl")


def due(names):
    """The cases that are due, or those of them that are named. Where none is, or not each that is named, nothing is tried."""
    those = [case for case in table() if is_due(case) and (not names or case["name"] in names)]
    gone = sorted(set(names) - {case["name"] for case in those})
    if gone or not those:
        print(f"no case is due by the name {gone[0]}" if gone else "no case is due", file=sys.stderr)
        sys.exit(3)
    return those


def built(folder, source):
    """The library to preload."""
    path = pathlib.Path(folder) / f"{source}.so"
    command = ["cc", "-O2", "-fno-builtin", "-shared", "-fPIC", "-o", path, TOP / "robustness" / "hostile" / f"{source}.c"]
    subprocess.run(command, check=True)
    return path


def is_told(told, line, words, whole, behind=b""):
    """Whether standard error tells by this line that a command failed; `whole` is the command's status and standard error where
    nothing fails. With -v the line may come behind what the search said before, and before what matches `behind`; and a fault
    that is told stays told, though its second line can't be had."""
    if not {"-v", "--verbose"}.intersection(map(str, words)):
        return told == line
    said, found, more = told.rpartition(line)
    status, error = whole
    if found:
        return error.startswith(said) and re.fullmatch(behind, more) is not None
    return status == 3 and told.split(b"\n")[0] == error.split(b"\n")[0]


def run(command, library, teller, settings, **how):
    """What the command did under the library with these settings, and what the library told: the variable `teller` names the
    descriptor to which it tells."""
    told = os.memfd_create("told")
    with contextlib.ExitStack() as end:
        end.callback(os.close, told)
        done = subprocess.run(
            command,
            cwd=FOLDER,
            env={**os.environ, **settings, teller: str(told), "LD_PRELOAD": str(library)},
            stdin=subprocess.DEVNULL,
            stderr=subprocess.PIPE,
            pass_fds=[told],
            timeout=LIMIT_SECONDS,
            check=False,
            **{"stdout": subprocess.PIPE, **how},
        )
        return done, os.pread(told, os.fstat(told).st_size, 0)


def files_of(told, at, count):
    """So many files that are told from this place on, by their names, and the place behind them."""
    files = {}
    for _ in range(count):
        name, size = FILE.unpack_from(told, at)
        at += FILE.size
        files[name.rstrip(b"\0").decode()] = told[at : at + size]
        at += size
    return files, at


def copies_of(told):
    """What each copy came to."""
    at, found = 0, []
    while at < len(told):
        number, status, size, errors, count = HEAD.unpack_from(told, at)
        put = told[at + HEAD.size : at + HEAD.size + size]
        files, at = files_of(told, at + HEAD.size + size, count)
        cut = size - errors
        found.append(Ended(number, os.waitstatus_to_exitcode(status), put[:cut], put[cut:], files))
    return found


def content(file):
    """All bytes of an open file."""
    return os.pread(file, os.fstat(file).st_size, 0)


def each(command, library, settings, wanted, folder=None):
    """What a copy of the command comes to with each of the wanted failures, and what the command comes to itself without one
    (hostile/each.h). Beside the folder of the files that it makes there is an empty one, `saved`."""
    with contextlib.ExitStack() as end:

        def opened(file):
            end.callback(os.close, file)
            return file

        numbers, told, out, error = (opened(os.memfd_create(name)) for name in ("numbers", "told", "out", "error"))
        with open(numbers, "wb", closefd=False) as file:
            file.write(array.array("l", wanted).tobytes())
        handles = {"EACH": numbers, "EACH_TOLD": told}
        if folder:
            folders = {"EACH_FOLDER": folder, "EACH_SAVED": folder.parent / "saved"}
            handles |= {name: opened(os.open(path, os.O_RDONLY)) for name, path in folders.items()}
        done = subprocess.run(
            command,
            cwd=FOLDER,
            env={**os.environ, **settings, **{name: str(it) for name, it in handles.items()}, "LD_PRELOAD": str(library)},
            stdin=subprocess.DEVNULL,
            stdout=out,
            stderr=error,
            pass_fds=handles.values(),
            timeout=LIMIT_SECONDS * (1 + len(wanted)),
            check=False,
        )
        return copies_of(content(told)), Ended(0, done.returncode, content(out), content(error), {})


def not_each(wanted, found):
    """What is wrong where not each of the wanted failures came to be."""
    gone = sorted(set(wanted) - {it.number for it in found})
    return [f"{gone[0]} did not come to be, and {len(gone) - 1} others"] if gone else []


class Outs:
    """The files that a command makes in a folder, which has no others. They are there before every second failure."""

    def __init__(self, command, scratch):
        """The folder, and one for `each`, are made in the scratch folder."""
        self.folder = pathlib.Path(scratch) / "made"
        self.folder.mkdir()
        (self.folder.parent / "saved").mkdir()
        self.command = words_of(command, self.folder)
        self.names = [pathlib.Path(word).name for word in self.command[1:] if word.startswith(str(self.folder))]

    def begin(self, is_old):
        """None of them is there, or each is there with what was there before."""
        for path in self.folder.iterdir():
            path.unlink()
        for name in self.names if is_old else ():
            (self.folder / name).write_bytes(BEFORE)

    def texts(self):
        """What each holds, or nothing where it is not there."""
        found = {path.name: path.read_bytes() for path in self.folder.iterdir()}
        return [found.get(name) for name in self.names]

    def halves(self, wanted):
        """The failures before which none of them is there, and those before which each is."""
        return [(is_old, [number for number in wanted if (number % 2 == 0) == is_old]) for is_old in (False, True)]

    def changed(self, files, is_old):
        """What is wrong where each has to be as it was at the beginning."""
        was = BEFORE if is_old else None
        return [f"{name} was {'changed' if is_old else 'made'}" for name in self.names if files.get(name) != was]

    def left(self, files):
        """What is wrong where a file was left beside one of them."""
        found = [name for name in files if name not in self.names]
        return [f"left: {' '.join(found)}"] if found else []


def numbers(wanted):
    """The ones that are tried of these numbers: where there are over MOST, the first half of MOST, and as many of the others at
    equal distances."""
    if len(wanted) <= MOST:
        return wanted
    half = MOST // 2
    rest = len(wanted) - half
    return [*wanted[:half], *(wanted[half + rest * i // half] for i in range(half))]
