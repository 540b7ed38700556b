"""The cases of texts.tsv: what is done with one text or two, and what is wanted."""

import pathlib
import tempfile

from runner.evidence import unconfirmed
from runner.programs import FOLDER, answered, called, fault_of, run, words_of
from runner.tables import unescaped


def searched(what, circuit, options):
    """What `aigmc check -p b0` finds in a circuit, or nothing where `aigcheck` does not accept its evidence."""
    with tempfile.TemporaryDirectory() as folder:
        scratch = pathlib.Path(folder)
        path, kept = scratch / "circuit", scratch / "kept.cert"
        path.write_bytes(circuit)
        command = f"aigmc check {path} -p b0 {' '.join(options)} --cert {kept}"
        status, printed = answered(words_of(command, scratch))
        if status == 1 and unconfirmed({"command": command}, printed, scratch):
            return None
        if status == 0 and answered(words_of(f"aigcheck safe {path} {kept}", scratch)) != (0, b"yes safe b0\n"):
            return None
        if what == "times":
            return b"%d" % (len(printed.splitlines()) - 4)
        if what == "clauses" and status == 0:
            return clauses_of(kept.read_bytes())
    return printed if printed.startswith(b"%d\n" % status) else None


def clauses_of(certificate):
    """The clauses of a certificate, without their ids."""
    _, _, count, *lines = certificate.splitlines()
    return b"".join(line.partition(b" ")[2] + b"\n" for line in lines[: int(count)])


def adopted(circuit, clauses):
    """What `aigmc certify` makes of clauses about b0: what `aigcheck` says of the certificate, `no` or a fault."""
    with tempfile.TemporaryDirectory() as folder:
        scratch = pathlib.Path(folder)
        paths = [scratch / name for name in ("circuit", "clauses", "made.cert")]
        paths[0].write_bytes(circuit)
        paths[1].write_bytes(clauses)
        command = f"aigmc certify {paths[0]} -p b0 --invariant {paths[1]} --cert {paths[2]}"
        done = run(words_of(command, scratch))
        if done.stdout or (done.returncode == 0) != paths[2].exists():
            return None
        if done.returncode == 0:
            return answered(words_of(f"aigcheck safe {paths[0]} {paths[2]}", scratch))[1]
        return b"no\n" if done.returncode == 1 else fault_of(done)


def converted(what, text):
    """What `aigmc convert` makes of a text, or its last line, or the fault."""
    ending = "aig" if what == "to-binary" else "aag"
    done, made = called("aigmc", ["convert", f"made.{ending}"], text)
    if done.returncode == 0 and what == "last-line":
        return made.splitlines()[-1]
    return made if done.returncode == 0 else fault_of(done)


def simulated(circuit, stimulus):
    """What `aigmc sim` prints of a circuit and a stimulus, or its fault."""
    done, _ = called("aigmc", ["sim"], circuit, stimulus)
    return done.stdout if done.returncode == 0 else fault_of(done)


def checked(what, circuit, evidence):
    """What `aigcheck` prints of a circuit and evidence, or nothing where its status says something else."""
    done, _ = called("aigcheck", [what], circuit, evidence)
    return done.stdout if done.returncode == (not done.stdout.startswith(b"yes ")) else None


def witnessed(circuit, certificate):
    """What `aigmc to-witness` makes of a circuit and a certificate, or its fault."""
    done, made = called("aigmc", ["to-witness", "made.aag"], circuit, certificate)
    return made if done.returncode == 0 else fault_of(done)


def beginning(what, first, second, length):
    """What is answered to the beginning of this length of the text that is cut."""
    if what == "cut":
        return converted("to-ascii", first[:length])
    return simulated(first, second[:length]) if what == "cut-sim" else adopted(first, second[:length])


def cut(what, first, second):
    """How a beginning is answered that is not refused at its length, or `-` where each is. No bytes are no
    certificate, but the clauses of one."""
    text, number = first if what == "cut" else second, 84 if what == "cut-sim" else 6
    for length in range(what == "cut-certify", len(text)):
        got = beginning(what, first, second, length)
        if got != b"fault %d at %d" % (number, length):
            return b"%r cut at %d" % (got, length)
    return b"-"


def answer_to(what, first, second):
    """What is answered to a line of texts.tsv, in the words of its last field."""
    if what in ("to-ascii", "to-binary", "last-line"):
        return converted(what, first)
    if what == "sim":
        return simulated(first, second)
    if what in ("safe", "run"):
        return checked(what, first, second)
    if what == "certify":
        return adopted(first, second)
    if what == "to-witness":
        return witnessed(first, second)
    if what in ("check", "times", "clauses"):
        return searched(what, first, second.decode().split())
    return cut(what, first, second)


def is_well(line):
    """Whether a line is answered as is wanted; else the line and its answer are printed."""
    what, first, second, wanted = line.split("\t")
    got = answer_to(what, unescaped(first), unescaped(second))
    if got == unescaped(wanted):
        return True
    print(f"{line!r}: {got!r}")
    return False


def texts():
    """How many lines of texts.tsv are answered as is wanted, and how many not."""
    lines = (FOLDER / "texts.tsv").read_text(encoding="utf-8").splitlines()[1:]
    found = [is_well(line) for line in lines if not line.startswith("#")]
    return found.count(True), found.count(False)
