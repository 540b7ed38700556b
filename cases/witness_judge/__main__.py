"""cases/witness_judge: what tools/witness_judge says of small pairs of circuits, right ones and some that break each
condition, and of random ones.

It is called by hand as `python3 cases/witness_judge`, and by cases/run, and needs no built program. Each pair of
pairs.py is judged with a solver that stands here, which tries both values of each variable, and then with each SAT
solver that is installed. What is wanted follows from the conditions on paper; each pair says how. Of random pairs the
conditions are tried over all values too (enumeration.py); where all hold, exhaustive search says that the model is
safe. The last line is 'N passed, M failed'; the status is 0 only where nothing failed.
"""

import pathlib
import sys
import tempfile

sys.dont_write_bytecode = True

import enumeration
import judging


def main():
    with tempfile.TemporaryDirectory() as folder:
        scratch = pathlib.Path(folder).resolve()
        faults = judging.by_solvers(scratch) + judging.refusals(scratch) + judging.stops(scratch)
    faults += enumeration.random_pairs()
    failed = [f"{name}: {fault}" for name, fault in faults if fault]
    print(*failed, f"{len(faults) - len(failed)} passed, {len(failed)} failed", sep="\n")
    return 1 if failed else 0


if __name__ == "__main__":
    if sys.argv[1:2] in (["-h"], ["--help"]):
        sys.exit(print(__doc__.strip()))
    try:
        sys.exit(main())
    except KeyboardInterrupt:
        sys.exit(130)
