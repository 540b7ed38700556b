"""The tables of cases, and the texts in their fields."""

import re

from runner.programs import FOLDER

# The stages that are built.
STANDING = {
    *("safe", "read", "convert", "run", "sim", "hostile", "streaming", "check", "random", "justice", "outputs", "all"),
    *("explain", "trace", "adopt", "version2", "version3"),
}


def table(name="cases.tsv"):
    """The cases of a table."""
    with open(FOLDER / name, encoding="utf-8") as lines:
        names, *rows = [line.rstrip("\n").split("\t") for line in lines]
    return [dict(zip(names, row, strict=True)) for row in rows]


def is_due(case):
    """Whether the case's programs are built so far."""
    return case["stage"] in STANDING


def text_of(field):
    """The bytes that a field of cases.tsv stands for."""
    return b"" if field == "-" else field.replace("\\n", "\n").encode()


def unescaped(field):
    """The bytes that a text of texts.tsv stands for."""
    field = re.sub(r"\{(\d+) (.)\}", lambda it: int(it[1]) * it[2], field)
    plain = {"n": b"\n", "t": b"\t", "\\": b"\\"}
    parts = re.split(r"\\(x[0-9a-f]{2}|.)", field)
    for at in range(1, len(parts), 2):
        parts[at] = plain.get(parts[at]) or bytes([int(parts[at][1:], 16)])
    return b"".join(it if isinstance(it, bytes) else it.encode() for it in parts)
