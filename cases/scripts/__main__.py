"""cases/scripts: what the programs do over files, and the scripts of bin/ around them; the programs have to be built
(bin/build). It is called by hand as `python3 cases/scripts [WORD]`, with the cases alone whose names have the word, and
by cases/run.

Most cases run the scripts as they are installed, in a scratch folder, and some have a program do something first:
sleep, fail, or replace the circuit. The last line is 'N passed, M failed'; the status is 0 only where nothing failed.
"""

import pathlib
import sys
import tempfile

sys.dont_write_bytecode = True

import check_all
import competition
import gate
import installing
import programs
import starting
import trial


def faults_of(function):
    """What is wrong in a case."""
    with tempfile.TemporaryDirectory() as folder:
        try:
            function(pathlib.Path(folder).resolve())
        except trial.Wrong as wrong:
            return [str(wrong)]
    return []


def main(words):
    passed = failed = 0
    for name, function in trial.CASES:
        if any(word not in name for word in words):
            continue
        try:
            faults = faults_of(function)
        except trial.NotTried as why:
            print(f"{name}: not tried: {why}")
            continue
        for fault in faults:
            print(f"{name}: {fault}")
        passed, failed = passed + (not faults), failed + bool(faults)
    print(f"{passed} passed, {failed} failed")
    return 1 if failed or not passed else 0


if __name__ == "__main__":
    if sys.argv[1:2] in (["-h"], ["--help"]):
        sys.exit(print(__doc__.strip()))
    sys.exit(main(sys.argv[1:]))
