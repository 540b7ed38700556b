"""Circuits as the scripts of bin/ see them: their bytes, and what their properties are called."""

import collections
import hashlib
import os
import re
import stat

# The longest text that the programs take.
MOST_BYTES = 67_108_864

HEADER = re.compile(rb"(aag|aig)((?: [0-9]{1,9}){5,9})(?=\n)")
SYMBOL = re.compile(rb"^([bjo](?:0|[1-9][0-9]*)) (.*)$", re.MULTILINE)
HIGH_BYTES = bytes(range(128, 256))

Counts = collections.namedtuple("Counts", "most inputs latches outputs gates bad constraints justice fairness")


class NoCircuit(Exception):
    """Why a file is no circuit."""


def read(path):
    """The bytes of a circuit's file."""
    source = os.open(path, os.O_RDONLY | os.O_NONBLOCK | os.O_CLOEXEC)
    kind = os.fstat(source).st_mode
    if not stat.S_ISREG(kind):
        os.close(source)
        raise NoCircuit("it is a folder" if stat.S_ISDIR(kind) else "it is no file")
    with open(source, "rb") as file:
        text = file.read(MOST_BYTES + 1)
    if len(text) > MOST_BYTES:
        raise NoCircuit(f"it is longer than {MOST_BYTES} bytes")
    return text


def checksum(text):
    """The SHA-256 of bytes, in hexadecimal."""
    return hashlib.sha256(text).hexdigest()


def counts_of(text):
    """What the header counts."""
    header = HEADER.match(text)
    if not header:
        raise NoCircuit("it does not begin with the header of an AIGER file")
    counts = Counts(*[int(word) for word in header[2].split()] + [0] * (9 - len(header[2].split())))
    if counts.outputs + counts.bad + counts.justice > len(text):
        raise NoCircuit("its header counts more properties than it has bytes")
    return counts


def property_names(counts):
    """The names of the properties: bad literals and justice properties, or the outputs where there is nothing else."""
    if counts.bad + counts.constraints + counts.justice + counts.fairness == 0:
        return [f"o{position}" for position in range(counts.outputs)]
    return [f"b{position}" for position in range(counts.bad)] + [f"j{position}" for position in range(counts.justice)]


def behind(text, start, wanted, count):
    """The least place with as many ends between it and the start as are wanted. `count` counts the ends in bytes."""
    low, high, missing = start, len(text), wanted
    while low < high:
        middle = (low + high) // 2
        found = count(text[low:middle])
        if found < missing:
            if middle == low:
                break
            low, missing = middle, missing - found
        else:
            high = middle
    return high if missing else low


def line_ends(text):
    """How many lines end in bytes."""
    return text.count(b"\n")


def number_ends(text):
    """How many of AIGER's binary numbers end in bytes: those bytes whose high bit is 0."""
    return len(text.translate(None, HIGH_BYTES))


def symbol_table(text, counts):
    """The part of a circuit that begins with its symbols."""
    is_binary = text.startswith(b"aig")
    lines = 1 + counts.latches + counts.outputs + counts.bad + counts.constraints
    at = behind(text, 0, lines if is_binary else lines + counts.inputs, line_ends)
    sizes_end = behind(text, at, counts.justice, line_ends)
    literals = sum(int(size) for size in text[at:sizes_end].split())
    at = behind(text, sizes_end, literals + counts.fairness + (0 if is_binary else counts.gates), line_ends)
    return text[behind(text, at, 2 * counts.gates, number_ends) if is_binary else at :]


def symbols(text):
    """The names that the symbol table gives to properties. A text that breaks off before has none."""
    try:
        table = symbol_table(text, counts_of(text))
    except ValueError:
        return {}
    table = table[: 0 if table.startswith(b"c\n") else (table.find(b"\nc\n") + 1 or len(table))]
    found = {}
    for name, symbol in SYMBOL.findall(table):
        found.setdefault(name.decode(), symbol)
    return found
