"""Circuits in AIGER 1.9, read from both layouts, and their values."""

import collections
import graphlib
import re

# A circuit: its greatest variable, its literals, its gates in an order in which each comes behind those that it reads,
# and what its symbol table names, by kind and position.
Circuit = collections.namedtuple("Circuit", "most inputs latches outputs bad constraints others gates names")
Latch = collections.namedtuple("Latch", "lit next reset")
Gate = collections.namedtuple("Gate", "lit left right")

NUMBER = re.compile(rb"0|[1-9][0-9]{0,17}")
SYMBOL = re.compile(rb"([ilobcjf])(0|[1-9][0-9]*) (.+)")


class NoCircuit(Exception):
    """Why a text is no circuit."""


class Text:
    """A text, and how far it was read."""

    def __init__(self, text):
        self.text, self.at, self.line = text, 0, 0

    def row(self, *lengths):
        """The numbers of the next line, of which there are as many as one of these lengths."""
        words = self.next_line().split(b" ")
        if len(words) not in lengths or not all(map(NUMBER.fullmatch, words)):
            raise NoCircuit(f"line {self.line} is not {' or '.join(map(str, lengths))} numbers")
        return [int(word) for word in words]

    def next_line(self):
        """The next line, without its end."""
        end = self.text.find(b"\n", self.at)
        self.line += 1
        if end < 0:
            raise NoCircuit(f"it ends where line {self.line} has to stand")
        line, self.at = self.text[self.at : end], end + 1
        return line

    def delta(self):
        """The next number of the binary layout: seven bits a byte, the lowest first."""
        number = shift = 0
        while self.at < len(self.text) and shift < 63:
            byte = self.text[self.at]
            self.at, number, shift = self.at + 1, number | (byte & 127) << shift, shift + 7
            if byte < 128:
                return number
        raise NoCircuit("a gate's number does not end")

    def has_more(self):
        """Whether there is more text."""
        return self.at < len(self.text)


def read(content):
    """The circuit of a text."""
    text = Text(content)
    kind, *words = text.next_line().split(b" ")
    if kind not in (b"aag", b"aig") or not 5 <= len(words) <= 9 or not all(map(NUMBER.fullmatch, words)):
        raise NoCircuit("it does not begin with the header of an AIGER file")
    counts = [int(word) for word in words] + [0] * (9 - len(words))
    most, inputs, latches, outputs, gates, bad, constraints, justice, fairness = counts
    if sum(counts[1:]) > len(content) + (inputs if kind == b"aig" else 0):
        raise NoCircuit("its header counts more than it has bytes")
    if kind == b"aig" and most != inputs + latches + gates:
        raise NoCircuit("the header of a binary file counts other variables than inputs, latches and gates")
    is_binary = kind == b"aig"
    ins = [2 * at + 2 for at in range(inputs)] if is_binary else [text.row(1)[0] for _ in range(inputs)]
    states = [latch(text, 2 * (inputs + at) + 2 if is_binary else None) for at in range(latches)]
    lists = [[text.row(1)[0] for _ in range(count)] for count in (outputs, bad, constraints)]
    sizes = [text.row(1)[0] for _ in range(justice)]
    others = [text.row(1)[0] for _ in range(sum(sizes) + fairness)]
    ands = [gate(text, 2 * (inputs + latches + at) + 2 if is_binary else None) for at in range(gates)]
    names = symbols(text, {b"i": inputs, b"l": latches, b"o": outputs, b"b": bad, b"c": constraints})
    return checked(Circuit(most, ins, states, *lists, others, ands, names))


def latch(text, lit):
    """The latch of the next line, which begins with its literal where that is not known."""
    row = [lit, *text.row(1, 2)] if lit else text.row(2, 3)
    return Latch(*row, *([0] if len(row) == 2 else []))


def gate(text, lit):
    """The next gate: a line, or two differences where its literal is known."""
    if lit is None:
        return Gate(*text.row(3))
    left = lit - text.delta()
    right = left - text.delta()
    if not lit > left >= right >= 0:
        raise NoCircuit(f"the gate {lit} does not stand above its sides")
    return Gate(lit, left, right)


def symbols(text, counts):
    """What the symbol table names, by kind and position."""
    names = {}
    while text.has_more():
        line = text.next_line()
        if line == b"c":
            break
        found = SYMBOL.fullmatch(line)
        if not found:
            raise NoCircuit(f"{line[:40]!r} is no line of a symbol table")
        key = found[1].decode(), int(found[2])
        if key in names or key[1] >= counts.get(found[1], key[1] + 1):
            raise NoCircuit(f"{key[0]}{key[1]} is named twice, or there is no such")
        names[key] = found[3]
    return names


def checked(circuit):
    """The circuit with its gates in order, where each literal is defined once."""
    defined = [*circuit.inputs, *(it.lit for it in circuit.latches), *(it.lit for it in circuit.gates)]
    used = [*circuit.outputs, *circuit.bad, *circuit.constraints, *circuit.others]
    used += [lit for it in circuit.latches for lit in (it.next, it.reset)]
    used += [lit for it in circuit.gates for lit in (it.left, it.right)]
    wrong = [lit for lit in defined if lit % 2 or not 2 <= lit <= 2 * circuit.most]
    if wrong or len(set(defined)) < len(defined):
        raise NoCircuit(f"{wrong[0]} defines no variable" if wrong else "a variable is defined twice")
    unknown = {lit & ~1 for lit in used} - {0, *defined}
    if unknown:
        raise NoCircuit(f"{min(unknown)} is used and not defined")
    return circuit._replace(gates=ordered(circuit.gates))


def ordered(gates):
    """The gates, each behind those that it reads."""
    by_lit = {it.lit: it for it in gates}
    stands = {it.lit: [lit & ~1 for lit in (it.left, it.right) if lit & ~1 in by_lit] for it in gates}
    try:
        return [by_lit[lit] for lit in graphlib.TopologicalSorter(stands).static_order()]
    except graphlib.CycleError as error:
        raise NoCircuit(f"the gate {error.args[1][0]} reads itself") from None


def values_of(circuit, given):
    """The value of each variable, where inputs and latches have these, by their literals."""
    values = {0: False, **given}
    for it in circuit.gates:
        values[it.lit] = (values[it.left & ~1] != it.left % 2) and (values[it.right & ~1] != it.right % 2)
    return values
