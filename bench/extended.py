"""Circuits with certificates of version 3, of any size. docs/CERTIFICATE.md says which clause has which id."""

import random

# How many gates are written at a time, and the inputs that they read.
CHUNK, INPUTS = 100_000, 49


def write_clauses(folder, count):
    """COUNT clauses over as many gates of the extension: COUNT is 3 at least.

    The latches are 0 and keep their values. Gate `i` of the extension says that latches `i` and `i + 1` are 0, and
    clause `i` that the gate or latch `i + 2` is set. Each has 3 hints for a first time, and 7 for the next time. The
    bad literal is set where the first clause is not.
    """
    circuit, certificate = folder / f"clauses3-{count}.aag", folder / f"clauses3-{count}.cert"
    with open(circuit, "w", encoding="ascii") as file:
        file.write(f"aag {count + 2} 0 {count} 0 2 1\n")
        file.writelines(f"{2 * i} {2 * i}\n" for i in range(1, count + 1))
        file.write(f"{2 * count + 4}\n{2 * count + 2} 5 3\n{2 * count + 4} {2 * count + 3} 7\n")
    with open(certificate, "w", encoding="ascii") as file:
        write_clauses_head(file, count)
        write_clauses_hints(file, count)
    return circuit, certificate


def latch_of(number, count):
    """The literal of this latch, from 0, in turn."""
    return 2 * (number % count) + 2


def write_clauses_head(file, count):
    """The property, the gates and the clauses."""
    file.write(f"aigcert 3\nb0\n0 {count}\n")
    first = 2 * count + 6
    file.writelines(f"{first + 2 * i} {latch_of(i, count) + 1} {latch_of(i + 1, count) + 1}\n" for i in range(count))
    file.write(f"{count}\n")
    file.writelines(f"2 {first + 2 * i} {latch_of(i + 2, count)}\n" for i in range(count))


def write_clauses_hints(file, count):
    """The three sections. The gates of the circuit come before those of the extension."""
    gates = count + 2
    third = count + 2 + 2  # the third clause of the first gate, in section i: behind the resets and truth
    file.write("i\n.\n")
    file.writelines(f"3 {i + 1} {(i + 1) % count + 1} {third + 3 * (i + 2)}\n" for i in range(count))
    steps = 2 + 3 * gates
    later = steps + 2 * count + 1  # the first clause of the first gate at the next time
    clauses = later + 3 * gates
    file.write("s\n.\n")
    for i in range(count):
        here, there = 2 + 3 * (i + 2), later + 3 * (i + 2)
        one, two, other = (steps + 2 * ((i + k) % count) for k in range(3))
        file.write(f"7 {other + 1} {clauses + i} {here} {here + 1} {one} {two} {there + 2}\n")
    bad = steps + count
    file.write(f"b\n{bad + 1} 0 {bad} 5 6 {steps} 8 9 4 0\n.\n")


def write_lines(folder, count):
    """A latch that keeps its value, beside 11 inputs, and a section `s` of COUNT lines."""
    circuit, certificate = folder / f"lines3-{count}.aag", folder / f"lines3-{count}.cert"
    inputs = "".join(f"{2 * i}\n" for i in range(1, 12))
    circuit.write_text(f"aag 12 11 1 0 0 1\n{inputs}24 24\n24\n", encoding="ascii")
    choice = random.Random(1)
    pairs = [f"{one} {two} -12 0 5 0\n" for one in range(-5, 6) for two in range(-11, 12) if one and abs(two) > 5]
    with open(certificate, "w", encoding="ascii") as file:
        file.write("aigcert 3\nb0\n0 0\n1\n1 25\ni\n.\n1 1\ns\n")
        file.writelines(f"{6 + i} {rest}" for i, rest in enumerate(choice.choices(pairs, k=count)))
        file.write(".\n2 2 5\nb\n4 0 2 3 0\n.\n")
    return circuit, certificate


def difference(number):
    """A difference of literals in the binary format."""
    written = bytearray()
    while number > 127:
        written.append(number & 127 | 128)
        number >>= 7
    written.append(number)
    return written


# The first two bytes of a difference that has more, by its low 14 bits, and the last ones, by the others.
LOW = [bytes((number & 127 | 128, number >> 7 | 128)) for number in range(1 << 14)]
HIGH = [bytes(difference(number)) for number in range(1 << 9)]


def write_gates(ascii_file, binary_file, first, sides):
    """Gates from this literal on, in both formats: the literals of a gate's sides differ by less than 128."""
    rows = [(left, a, b) for left, (a, b) in zip(range(first, first + 2 * len(sides), 2), sides)]
    ascii_file.write("".join(f"{left} {a} {b}\n" for left, a, b in rows).encode())
    steps = [(left - a, HIGH[a - b]) for left, a, b in rows]
    binary_file.write(b"".join((LOW[step & 16383] + HIGH[step >> 14] if step >> 14 else difference(step)) + last
                               for step, last in steps))


def write_wide(folder, count):
    """COUNT gates over the inputs, the last of which is a constraint and, denied, the bad literal.

    The certificate adds a gate that says the same as that one, and its clause is this gate.
    """
    texts = [folder / f"wide3-{count}.{ending}" for ending in ("aag", "aig")]
    certificate = folder / f"wide3-{count}.cert"
    choice, last = random.Random(7), 2 * (INPUTS + count)
    counts = f"{INPUTS + count} {INPUTS} 0 0 {count} 1 1\n"
    with open(texts[0], "wb") as ascii_file, open(texts[1], "wb") as binary_file:
        inputs = "".join(f"{2 * i}\n" for i in range(1, INPUTS + 1))
        ascii_file.write(f"aag {counts}{inputs}{last + 1}\n{last}\n".encode())
        binary_file.write(f"aig {counts}{last + 1}\n{last}\n".encode())
        for done in range(0, count, CHUNK):
            sides = choice.choices(range(2, 2 * INPUTS + 2), k=2 * min(CHUNK, count - done))
            pairs = [(max(pair), min(pair)) for pair in zip(sides[::2], sides[1::2])]
            write_gates(ascii_file, binary_file, 2 * (INPUTS + done + 1), pairs)
    frame = 3 * count + 5  # truth, the gates and the constraint
    lines = ["aigcert 3", "b0", "0 1", f"{last + 2} {last} 1", "1", f"1 {last + 2}", "i", "."]
    lines += [f"3 1 {frame} {frame - 1}", "s", ".", f"3 {frame + 1} {2 * frame} {2 * frame - 1}", "b"]
    lines += [f"{frame + 3} 0 {frame + 1} {frame - 3} {frame + 2} 0", "."]
    certificate.write_text("\n".join(lines) + "\n", encoding="ascii")
    return *texts, certificate
