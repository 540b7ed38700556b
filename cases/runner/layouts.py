"""The way of the cases' circuits through the binary layout and back."""

import pathlib
import tempfile

from runner.programs import FOLDER, executable, run


def is_ordered(text):
    """Whether an ASCII circuit has the numbering of the binary layout: inputs, latches and gates are 2, 4, 6
    and so on, and the literals of each gate descend."""
    counts, *lines = [line.split() for line in text.decode().split("\n")]
    most, inputs, latches, outputs, gates, *others = [int(word) for word in counts[1:]] + [0] * 4
    if others[2]:
        return False
    used = outputs + others[0] + others[1] + others[3]
    made = inputs + latches
    left = [int(line[0]) for line in lines[:made]]
    ands = [[int(word) for word in line] for line in lines[made + used : made + used + gates]]
    left += [gate[0] for gate in ands]
    descend = all(lhs > rhs0 >= rhs1 for lhs, rhs0, rhs1 in ands)
    return descend and left == [2 * (k + 1) for k in range(most)]


def converted(source, target):
    """What `aigmc convert` makes of a file, or nothing where it refuses."""
    done = run([executable("aigmc"), "convert", str(source), str(target)])
    return target.read_bytes() if done.returncode == 0 else None


def is_same(source):
    """Whether a circuit has the same text after a way through the binary layout, or nothing (None) where it is not
    ordered."""
    with tempfile.TemporaryDirectory() as folder:
        scratch = pathlib.Path(folder)
        text = converted(source, scratch / "first.aag")
        if text is None or not is_ordered(text):
            return None
        binary = converted(scratch / "first.aag", scratch / "second.aig")
        back = converted(scratch / "second.aig", scratch / "third.aag")
    if binary is not None and back == text:
        return True
    print(f"{source.name}: another text after a way through the binary layout")
    return False


def round_trips():
    """How many ordered circuits are the same after a way through the binary layout, and how many not."""
    found = [is_same(source) for source in sorted((FOLDER / "files").glob("*.aag"))]
    return found.count(True), found.count(False)
