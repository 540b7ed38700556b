"""Large texts in a small stack and in little memory."""

import pathlib
import resource
import tempfile

from runner.programs import FOLDER, executable, run

# How many gates the deep chain has.
DEPTH = 1_000_000

# How many bytes the stack has under which it is converted.
STACK = 64 << 10

# How much memory evidence may take that never ends, or that is long and says little at once: bytes of address space.
LITTLE = 64 << 20

# How many input lines a long stimulus has, and how many clauses a long section adds and deletes in turn.
MANY_TIMES, MANY_CLAUSES = 16_000_000, 3_000_000


def small_stack():
    """Leaves the program a stack of 64 KiB."""
    resource.setrlimit(resource.RLIMIT_STACK, (STACK, STACK))


def little_memory():
    """Leaves the program 64 MiB of memory."""
    resource.setrlimit(resource.RLIMIT_AS, (LITTLE, LITTLE))


def in_small_stack(program, *words):
    """What a program does under a small stack."""
    return run([executable(program), *map(str, words)], preexec_fn=small_stack)


def delta(n):
    """The difference in AIGER's binary layout: seven bits a byte, the lowest first."""
    return bytes([n]) if n < 128 else bytes([n % 128 + 128]) + delta(n // 128)


def deep_chain():
    """What is wrong with a chain of 1,000,000 gates, each of which reads the one before it, that is given last first
    and converted to binary under a stack of 64 KiB. In binary it is ordered: the inputs are the variables 1 and 2, the
    gates 3, 4 and so on, and each joins the gate before it and an input or its negation in turn, so that the last is
    false."""
    gates = [(2 * v, 2 * v - 2, (3, 4, 5, 2)[v % 4]) for v in range(3, DEPTH + 3)]
    head = f"{DEPTH + 2} 2 0 0 {DEPTH} 1\n"
    deep = "".join(f"{lhs} {rhs0} {rhs1}\n" for lhs, rhs0, rhs1 in reversed(gates))
    with tempfile.TemporaryDirectory() as folder:
        given, made, stimulus = [pathlib.Path(folder) / name for name in ("deep.aag", "made.aig", "stimulus")]
        given.write_bytes(f"aag {head}2\n4\n{2 * DEPTH + 5}\n{deep}".encode())
        done = in_small_stack("aigmc", "convert", given, made)
        binary = made.read_bytes() if made.exists() else b""
        stimulus.write_bytes(b"1\nb0\n\n00\n.\n")
        said = in_small_stack("aigcheck", "run", given, stimulus)
    if said.stdout != b"yes run b0\n":
        return [f"its last gate is not false: {said.stdout!r}"]
    if done.returncode or done.stderr:
        return [f"status {done.returncode}, {done.stderr!r}"]
    wanted = f"aig {head}{2 * DEPTH + 5}\n".encode() + b"".join(delta(l - a) + delta(a - b) for l, a, b in gates)
    return [] if binary == wanted else ["another binary text"]


def deep_cycle():
    """What is wrong with how a cycle of 1,000,000 gates is refused, under a stack of 64 KiB."""
    gates = "".join(f"{2 * at} {2 * at - 2} {2 * at - 2}\n" for at in range(3, DEPTH + 2))
    with tempfile.TemporaryDirectory() as folder:
        given, made = pathlib.Path(folder) / "cycle.aag", pathlib.Path(folder) / "made.aig"
        given.write_bytes(f"aag {DEPTH + 1} 1 0 0 {DEPTH}\n2\n4 {2 * DEPTH + 2} 2\n{gates}".encode())
        done = in_small_stack("aigmc", "convert", given, made)
        was_made = made.exists()
    said = (done.returncode, done.stdout, done.stderr, was_made)
    return [] if said == (3, b"", b"aigmc: fault 11 at 2\n", False) else [repr(said)]


def in_little_memory(mode, *pieces):
    """What `aigcheck` says, in little memory, of the circuit hold.aag and of evidence that it reads from /dev/zero or,
    where there are pieces, from standard input."""
    words = [mode, str(FOLDER / "files" / "hold.aag"), "-" if pieces else "/dev/zero"]
    with tempfile.TemporaryFile() as evidence:
        evidence.writelines(pieces)
        evidence.seek(0)
        done = run([executable("aigcheck"), *words], stdin=evidence, preexec_fn=little_memory)
    return done.stdout.decode() + done.stderr.decode()


def endless():
    """What is wrong with evidence that never ends, or that is long and says little at once: the first is refused at its
    first byte, a stimulus is replayed while it is read, and clauses that a section adds and deletes in turn make room
    for one another."""
    lines = (b"%d -1 0 2 0\n%d d %d 0\n" % (id, id, id) for id in range(4, 4 + MANY_CLAUSES))
    section = b"".join(lines) + b"%d 0 2 3 0\n" % (4 + MANY_CLAUSES)
    head = b"aigcert 1\nb0\n1\n1 3\ni\n4 0 2 3 0\n.\ns\n4 0 2 3 0\n.\nb\n"
    said = {
        "a certificate of zeros": (in_little_memory("safe"), "no 70\n"),
        "a stimulus of zeros": (in_little_memory("run"), "no 80\n"),
        "a long stimulus": (in_little_memory("run", b"1\nb0\n0\n", b"\n" * MANY_TIMES, b".\n"), "no 62\n"),
        "a long section": (in_little_memory("safe", head, section, b".\n"), "yes safe b0\n"),
    }
    return [f"{name}: {found!r}, and should be {wanted!r}" for name, (found, wanted) in said.items() if found != wanted]
