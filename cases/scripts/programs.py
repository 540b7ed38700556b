"""Cases of the programs themselves: names of properties, a time, and the files that they make."""

import itertools
import json
import os
import random
import re
import shutil
import stat
from collections import Counter
from importlib.machinery import SourceFileLoader

from trial import BOTH, FILES, HOLDS, PROGRAMS, call, case, counter, expect, make

JUSTICE = (FILES / "hold-justice-named.aag").read_bytes()
INVARIANT = (FILES / "hold.clauses").read_bytes()
SPENT = b"the time is over; a greater --timeout looks further"

# Small circuits, and what exhaustive search says of them.
EXHAUSTIVE = SourceFileLoader("exhaustive", str(FILES.parent / "exhaustive")).load_module()

# The greatest number of steps: the time alone ends a search.
ALL_STEPS = "18446744073709551615"


def program(scratch, name, *words, **more):
    """What a program puts, and its status."""
    done = call(PROGRAMS[name], *words, cwd=scratch, **more)
    return done.out, done.told, done.status


def mode_of(path):
    """Who may read and write a file."""
    return stat.S_IMODE(path.stat().st_mode)


@case("aigmc, aigcheck: a property by a name with spaces")
def spaced(scratch):
    make(scratch / "circuit.aag", BOTH)
    run = b"1\nb1\n00\n\n\n.\n"
    expect(program(scratch, "aigmc", "check", "circuit.aag", "-p", "turns"), (run, b"", 1), "turns")
    words = ("check", "circuit.aag", "-p", 'stays, "so"', "--cert", "made")
    expect(program(scratch, "aigmc", *words), (b"0\nb0\n.\n", b"", 0), "stays")
    words = ("safe", "circuit.aag", "made", "-p", 'stays, "so"')
    expect(program(scratch, "aigcheck", *words), (b"yes safe b0\n", b"", 0), "what the judge says of it")
    words = ("safe", "circuit.aag", "made", "-p", "turns")
    expect(program(scratch, "aigcheck", *words), (b"no 30\n", b"", 1), "what the judge says of another")


@case("aigcheck all -v: what properties are called")
def called(scratch):
    make(scratch / "circuit.aag", BOTH)
    (scratch / "made").mkdir()
    expect(program(scratch, "aigmc", "all", "circuit.aag", "--out", "made")[2], 1, "the status of aigmc")
    plain = program(scratch, "aigcheck", "all", "circuit.aag", "made")
    lines = b"yes safe b0\nyes run b1\n1 safe, 1 violated, 0 without evidence\n"
    expect(plain, (lines, b"", 1), "what it does without -v")
    told = b'  stays, "so" (b0)\n  turns (b1)\n'
    expect(program(scratch, "aigcheck", "all", "circuit.aag", "made", "-v"), (lines, told, 1), "what it does")
    (scratch / "made" / "b0.cert").replace(scratch / "made" / "b1.cert")
    refused = b"  made/b1.cert: the circuit has no such property, or the evidence is of another one\n"
    told = b'  stays, "so" (b0)\n' + refused + b"  turns (b1)\n"
    lines = b"no evidence b0\nno 30\nyes run b1\n0 safe, 1 violated, 1 without evidence\n"
    expect(program(scratch, "aigcheck", "all", "circuit.aag", "made", "-v"), (lines, told, 1), "what it says of a no")


@case("aigmc --quiet: verdicts without a run")
def quiet(scratch):
    make(scratch / "circuit.aag", BOTH)
    (scratch / "made").mkdir()
    words = ("all", "circuit.aag", "--quiet", "--out", "made")
    expect(program(scratch, "aigmc", *words), (b"0\nb0\n.\n1\nb1\n.\n", b"", 1), "what all does")
    expect((scratch / "made" / "b1.stim").read_bytes(), b"1\nb1\n00\n\n\n.\n", "the evidence")
    words = ("check", "circuit.aag", "-p", "b1", "--quiet")
    expect(program(scratch, "aigmc", *words), (b"1\nb1\n.\n", b"", 1), "what check does")


def is_counted(counts):
    """Whether they are what engines count: queries and more, each of an engine, and none below 0."""
    engines = {name.partition(": ")[0] for name in counts}
    return {"bmc"} <= engines <= {"bmc", "ic3", "corr"} and counts["bmc: queries"] > 0 and min(counts.values()) >= 0


def lines(done):
    """The lines of JSON that a program put, where they are all that it put, and its status. The seconds are left out, and where
    there are steps these too, and what the engines counted."""
    out, told, status = done
    expect((out[-1:], told, out.isascii()), (b"\n", b"", True), "the end of what it puts, and what it says")
    found = [json.loads(line) for line in out.splitlines()]
    times = [line.pop("seconds") for line in found]
    expect([time for time in times if not 0 <= time < 60], [], "times that can't be")
    steps = [line.pop("steps") for line in found if "steps" in line]
    expect([count for count in steps if not 0 < count <= 200_000_000], [], "steps that can't be")
    counted = [line.pop("statistics") for line in found if "statistics" in line]
    expect([counts for counts in counted if not is_counted(counts)], [], "counts that can't be")
    expect(len(counted), len(steps), "lines with what the engines counted")
    expect(out.count(b'"seconds":'), len(re.findall(rb'"seconds":\d+\.\d{3},', out)), "seconds with three decimals")
    return found, status


@case("--json: a line for each property, with what was kept and what is judged")
def told_in_json(scratch):
    folder = "q\"\\ é"
    make(scratch / "circuit.aag", BOTH.replace("turns", "t\t\\é"))
    (scratch / folder).mkdir()
    first = {"file": "circuit.aag", "property": "b0", "name": 'stays, "so"'}
    other = {"file": "circuit.aag", "property": "b1", "name": "t\t\\é".encode().decode("latin-1")}
    shown = folder.encode().decode("latin-1")
    found = {"reason": None, "vacuous": False}
    holds = first | {"verdict": "holds", "evidence": f"{shown}/b0.cert", "checked": None} | found
    violated = other | {"verdict": "violated", "evidence": f"{shown}/b1.stim", "checked": True} | found
    done = program(scratch, "aigmc", "all", "circuit.aag", "--json", "--out", folder)
    expect(lines(done), ([holds, violated], 1), "what aigmc all does")
    expect(done[0].count(b'"steps":'), 2, "lines with steps")
    safe = first | {"verdict": "safe", "evidence": f"{shown}/b0.cert", "checked": True, "number": None}
    shows = other | {"verdict": "violated", "evidence": f"{shown}/b1.stim", "checked": True, "number": None}
    done = program(scratch, "aigcheck", "all", "circuit.aag", folder, "--json")
    expect(lines(done), ([safe, shows], 1), "what aigcheck all does")
    (scratch / folder / "b0.cert").replace(scratch / folder / "b1.cert")
    (scratch / folder / "b1.stim").unlink()
    none = first | {"verdict": "none", "evidence": None, "checked": None, "number": None}
    refused = other | {"verdict": "refused", "evidence": f"{shown}/b1.cert", "checked": False, "number": 30}
    done = program(scratch, "aigcheck", "all", "circuit.aag", folder, "--json")
    expect(lines(done), ([none, refused], 2), "what aigcheck all says of evidence of another property")
    done = program(scratch, "aigmc", "check", "circuit.aag", "-p", "b0", "--json", "--cert", "made")
    expect(lines(done), ([holds | {"evidence": "made"}], 0), "what aigmc check does")
    expect(program(scratch, "aigcheck", "safe", "circuit.aag", "made")[2], 0, "what the judge says of the certificate")


@case("aigmc check --out: evidence of each kind goes to the folder, beside JSON")
def into_a_folder(scratch):
    make(scratch / "circuit.aag", BOTH)
    (scratch / "made").mkdir()
    run = b"1\nb1\n00\n\n\n.\n"
    words = ("check", "circuit.aag", "--out", "made")
    expect(program(scratch, "aigmc", *words, "-p", "b1"), (run, b"", 1), "what it does of a violation")
    expect((scratch / "made" / "b1.stim").read_bytes(), run, "the stimulus")
    done = program(scratch, "aigmc", *words, "-p", "b0", "--json")
    expect((json.loads(done[0])["evidence"], done[1:]), ("made/b0.cert", (b"", 0)), "what it says of one that holds")
    said = b"yes safe b0\nyes run b1\n1 safe, 1 violated, 0 without evidence\n"
    expect(program(scratch, "aigcheck", "all", "circuit.aag", "made"), (said, b"", 1), "what the judge says")
    done = program(scratch, "aigmc", *words, "-p", "b0", "--cert", "cert")
    expect((done, (scratch / "cert").exists()), ((b"", b"aigmc: bad argument\n", 3), False), "a file and a folder")
    make(scratch / "b0.cert", BOTH)
    done = program(scratch, "aigmc", "check", "b0.cert", "-p", "b0", "--out", ".", "-v")
    expect((done[0], done[2], (scratch / "b0.cert").read_text()), (b"", 3, BOTH), "what it does to the circuit")


@case("aigmc --timeout: the search ends, and what was found stays")
def timed(scratch):
    make(scratch / "circuit.aag", counter(64, 3))
    for engine in ("ic3", "all", "random"):
        words = ("check", "circuit.aag", "-p", "b1", "--timeout", "1", "--engine", engine, "--depth", "255", "-v")
        out, told, status = program(scratch, "aigmc", *words, "--budget", ALL_STEPS)
        last = told.splitlines()[-1]
        expect((out, last, status), (b"2\nb1\n.\n", b"b1: " + SPENT, 2), f"what {engine} does")
    (scratch / "made").mkdir()
    words = ("all", "circuit.aag", "--timeout", "1", "--engine", "ic3", "--budget", ALL_STEPS, "--out", "made")
    out, told, status = program(scratch, "aigmc", *words)
    expect((out, told, status), (b"0\nb0\n.\n2\nb1\n.\n2\nb2\n.\n", b"", 2), "what all does")
    expect([path.name for path in (scratch / "made").iterdir()], ["b0.cert"], "the evidence")
    judged = program(scratch, "aigcheck", "safe", "circuit.aag", "made/b0.cert", "-p", "b0")
    expect(judged, (b"yes safe b0\n", b"", 0), "what the judge says of it")


def extracted(scratch, circuit, name, verdict):
    """Whether the circuit of this property alone has the verdict, where a violation of it is one of the whole circuit."""
    make(scratch / "whole.aag", circuit)
    (scratch / "part.aig").unlink(missing_ok=True)
    expect(program(scratch, "aigmc", "extract", "whole.aag", "-p", name, "part.aig"), (b"", b"", 0), "what extract does")
    out, _, status = program(scratch, "aigmc", "check", "part.aig", "-p", "b0")
    if verdict == "safe":
        return status == 0
    make(scratch / "found", out)
    program(scratch, "aigmc", "witness", "whole.aag", "found", "shown", "-p", name)
    said = program(scratch, "aigcheck", "run", "whole.aag", "shown", "-p", name)
    steps = len(out.splitlines()) - 5
    return status == 1 and said == (f"yes run {name}\n".encode(), b"", 0) and steps == int(verdict.partition(" ")[2])


@case("aigmc extract: what exhaustive search says of the whole circuit")
def parts(scratch):
    rows = [line.split("\t") for line in (FILES.parent / "verdicts.tsv").read_text().splitlines()]
    rows = [(name, verdict, text.replace("\\n", "\n")) for name, verdict, text in rows if name.startswith("b")]
    lost = [name + text for name, verdict, text in rows if not extracted(scratch, text, name, verdict)]
    expect((lost, len(rows) > 100), ([], True), "the circuits of which something else is said, and whether there are many")


@case("aigmc: a stimulus or clauses without an end")
def endless(scratch):
    make(scratch / "hold.aag", HOLDS)
    first = b"aigmc: fault 1 at 1073741824\n"
    meaning = b"the text is longer than 67,108,864 bytes, or as a stimulus or clauses than 1,073,741,824"
    clauses = ("certify", "hold.aag", "-p", "b0", "--invariant", "/dev/zero", "--cert", "made", "-v")
    for words in (("sim", "hold.aag", "/dev/zero"), ("witness", "hold.aag", "/dev/zero", "made"), clauses):
        told = first + (b"  /dev/zero: " + meaning + b"\n" if "-v" in words else b"")
        expect(program(scratch, "aigmc", *words), (b"", told, 3), f"what {words[0]} does")
    with open(make(scratch / "long", ""), "wb") as text:
        text.truncate(1 << 30)
    expect(program(scratch, "aigmc", "trace", "hold.aag", "long"), (b"", b"aigmc: fault 80 at 0\n", 3), "a text as long as may be")
    expect([path.name for path in scratch.iterdir() if path.name == "made"], [], "what is made")


@case("aigmc: a file that is read is not written over")
def taken(scratch):
    make(scratch / "j.aag", JUSTICE)
    make(scratch / "hold.aag", HOLDS)
    make(scratch / "clauses", INVARIANT)
    os.link(scratch / "clauses", scratch / "linked")
    (scratch / "pointed").symlink_to("clauses")
    said = b"aigmc: bad argument\n"
    expect(program(scratch, "aigmc", "to-safety", "j.aag", "-p", "j0", "./j.aag"), (b"", said, 3), "to-safety")
    for name in ("clauses", "linked", "pointed"):
        words = ("certify", "hold.aag", "-p", "b0", "--invariant", "clauses", "--cert", name)
        expect(program(scratch, "aigmc", *words), (b"", said, 3), f"certify onto {name}")
    texts = [(scratch / name).read_bytes() for name in ("j.aag", "clauses")]
    expect(texts, [JUSTICE, INVARIANT], "the files")


@case("aigmc: a file that is replaced keeps its mode")
def kept(scratch):
    make(scratch / "circuit.aag", HOLDS)
    for mode in (0o600, 0o640, 0o444):
        made = make(scratch / "made.aag", "old\n")
        made.chmod(mode)
        expect(program(scratch, "aigmc", "convert", "circuit.aag", "made.aag"), (b"", b"", 0), "what it does")
        expect((mode_of(made), made.read_text()), (mode, HOLDS), f"the file of mode {mode:o}")
        made.unlink()
    expect(program(scratch, "aigmc", "convert", "circuit.aag", "made.aag", umask=0o027), (b"", b"", 0), "what it does")
    expect(mode_of(scratch / "made.aag"), 0o640, "the mode of a new file")


@case("aigmc: a file whose name is as long as the system takes")
def long(scratch):
    make(scratch / "circuit.aag", HOLDS)
    for name in ("n" * 251 + ".aag", "é" * 125 + "n.aag", "日" * 83 + "nn.aag"):
        expect(len(name.encode()), 255, "the length of the name")
        expect(program(scratch, "aigmc", "convert", "circuit.aag", name), (b"", b"", 0), f"what it does for {name}")
        expect((scratch / name).read_text(), HOLDS, "the file")
        (scratch / name).unlink()
    expect([path.name for path in scratch.iterdir()], ["circuit.aag"], "what is left")


def of_pair(one, other):
    """The least number of steps to a time at which two circuits with as many inputs, outputs and bad literals differ in
    one of these, by pairs of states; or None. Both keep their constraints at each time."""
    pairs = set(itertools.product(one.initial_states(), other.initial_states()))
    seen, steps = set(), 0
    while pairs:
        seen |= pairs
        times = [both for states in pairs for both in times_of(one, other, *states)]
        if any(seen_outside(one, values) != seen_outside(other, others) for values, others in times):
            return steps
        pairs = {(one.next_state(values), other.next_state(others)) for values, others in times} - seen
        steps += 1
    return None


def times_of(one, other, state, other_state):
    """The times of both circuits in these states under the same inputs, where both keep their constraints."""
    for inputs in itertools.product((False, True), repeat=len(one.inputs)):
        both = one.valuation(state, inputs), other.valuation(other_state, inputs)
        if all(values[lit // 2] != bool(lit % 2) for it, values in zip((one, other), both) for lit in it.constraints):
            yield both


def seen_outside(circuit, values):
    """The values of the outputs and bad literals."""
    return [values[lit // 2] != bool(lit % 2) for lit in circuit.outputs + circuit.bad]


def changed(source, text):
    """The circuit with the negation of a literal of one gate."""
    lines = text.splitlines()
    gates = int(lines[0].split()[5])
    at = len(lines) - 1 - source.randrange(gates)
    words = lines[at].split()
    side = source.choice((1, 2))
    words[side] = str(int(words[side]) ^ 1)
    lines[at] = " ".join(words)
    return "\n".join(lines) + "\n"


def compared(scratch, one, other, *options):
    """The steps of the run in which aigmc says that two files differ, or None where they are equal. aigcheck accepts
    the evidence."""
    made = scratch / "made"
    shutil.rmtree(made, ignore_errors=True)
    made.mkdir()
    out, told, status = program(scratch, "aigmc", "equal", one, other, "--out", "made", *options)
    expect((told, status in (0, 1)), (b"", True), "what equal says, and its status")
    kept = {path.name for path in made.iterdir()}
    expect(kept, {"miter.aig", "b0.stim" if status else "b0.cert"}, "what is in the folder")
    word, counts = ((b"run", b"0 safe, 1 violated"), (b"safe", b"1 safe, 0 violated"))[status == 0]
    said = b"yes " + word + b" b0\n" + counts + b", 0 without evidence\n"
    expect(program(scratch, "aigcheck", "all", "made/miter.aig", "made"), (said, b"", status), "what the judge says")
    return len(out.splitlines()) - 5 if status else None


def is_closed(circuit):
    """Whether each latch has a reset."""
    return all(lit != reset for lit, _, reset in circuit.latches)


def of_itself(scratch, text):
    """What exhaustive search and aigmc say of a circuit and what convert makes of it. A latch without a reset begins in
    both by itself; without such the two are equal."""
    make(scratch / "one.aag", text)
    expect(program(scratch, "aigmc", "convert", "one.aag", "same.aig"), (b"", b"", 0), "what convert does")
    circuit = EXHAUSTIVE.Circuit(text)
    wanted = None if is_closed(circuit) else of_pair(circuit, circuit)
    return wanted, compared(scratch, "one.aag", "same.aig")


def of_changed(scratch, text, other):
    """What exhaustive search and aigmc say of two circuits."""
    make(scratch / "one.aag", text)
    make(scratch / "other.aag", other)
    wanted = of_pair(EXHAUSTIVE.Circuit(text), EXHAUSTIVE.Circuit(other))
    return wanted, compared(scratch, "one.aag", "other.aag")


@case("aigmc equal: what exhaustive search says of small circuits and of changed ones")
def pairs(scratch):
    source, lost, found = random.Random(20), [], Counter()
    for _ in range(60):
        text = EXHAUSTIVE.generated(source, False)
        other = changed(source, text)
        said = of_itself(scratch, text), of_changed(scratch, text, other)
        lost += [(text, other, *both) for both in said if both[0] != both[1]]
        found.update(("itself" if at == 0 else "changed", wanted is None) for at, (wanted, _) in enumerate(said))
    expect(lost, [], "the circuits of which something else is said")
    expect(len(found) == 4 and min(found.values()) > 4, True, f"whether there are many of each kind: {found}")


@case("aigmc equal: the miter by names")
def mitered(scratch):
    make(scratch / "one.aag", "aag 4 2 1 1 1\n2\n4\n6 8\n6\n8 2 4\ni0 x\ni1 y\nl0 both\n")
    make(scratch / "other.aag", "aag 5 2 2 1 1\n2\n4\n6 2\n8 4\n10\n10 6 8\ni0 y\ni1 x\nl1 x\n")
    expect(compared(scratch, "one.aag", "other.aag"), None, "whether they differ")
    words = ("convert", "made/miter.aig", "miter.aag")
    expect(program(scratch, "aigmc", *words), (b"", b"", 0), "what convert does")
    # inputs 2 and 4; latches 6 of one, 8 and 10 of the other; their gates 12 and 14; 16, 18 and 20 compare these
    head = "aag 10 2 3 0 5 1\n2\n4\n6 12\n8 4\n10 2\n21\n"
    gates = "12 4 2\n14 10 8\n16 15 6\n18 14 7\n20 19 17\n"
    names = "i0 x\ni1 y\nl0 a.both\nl1 b.lo0\nl2 b.x\nb0 differs\n"
    expect((scratch / "miter.aag").read_text(), head + gates + names, "the miter")
    wanted = {"file": "one.aag other.aag", "property": "b0", "name": "differs", "verdict": "holds"}
    wanted |= {"evidence": "made/b0.cert", "checked": None, "reason": None, "vacuous": False}
    done = program(scratch, "aigmc", "equal", "one.aag", "other.aag", "--json", "--out", "made")
    expect(lines(done), ([wanted], 0), "what JSON says")


@case("aigmc equal --timeout: the search ends, and the miter stays")
def late(scratch):
    make(scratch / "one.aag", counter(64))
    make(scratch / "other.aag", "aag 1 1 0 0 0 1\n2\n0\n")
    (scratch / "made").mkdir()
    words = ("equal", "one.aag", "other.aag", "--timeout", "1", "--engine", "ic3", "--budget", ALL_STEPS)
    out, told, status = program(scratch, "aigmc", *words, "--out", "made", "-v")
    last = told.splitlines()[-1]
    expect((out, last, status), (b"2\nb0\n.\n", b"b0: " + SPENT + b" (differs)", 2), "what it does")
    expect([path.name for path in (scratch / "made").iterdir()], ["miter.aig"], "what is made")
    said = b"no evidence b0\n0 safe, 0 violated, 1 without evidence\n"
    expect(program(scratch, "aigcheck", "all", "made/miter.aig", "made"), (said, b"", 2), "what the judge says")


@case("aigmc equal: files that are read stay, and a miter over the limit is refused")
def unequal(scratch):
    make(scratch / "b0.cert", HOLDS)
    make(scratch / "miter.aig", HOLDS)
    for name in ("b0.cert", "miter.aig"):
        expect(program(scratch, "aigmc", "equal", name, name, "--out", "."), (b"", b"aigmc: bad argument\n", 3), name)
        expect((scratch / name).read_text(), HOLDS, "the file")
    expect(program(scratch, "aigmc", "equal", "-", "-"), (b"", b"aigmc: bad argument\n", 3), "standard input twice")
    # two circuits with so many latches each have one variable more than a circuit may
    latches = 2_097_152
    make(scratch / "large.aig", b"aig %d 0 %d 1 0\n" % (latches, latches) + b"0\n" * (latches + 1))
    (scratch / "made").mkdir()
    words = ("equal", "large.aig", "large.aig", "--out", "made")
    expect(program(scratch, "aigmc", *words), (b"", b"aigmc: fault 4 at 0\n", 3), "what it does")
    expect(list((scratch / "made").iterdir()), [], "what is made")


@case("aigmc cover: the run is a stimulus for sim and trace, and no violation")
def covered(scratch):
    text = "aag 4 1 2 0 1 2 1\n2\n4 5\n6 6 6\n0\n6\n9\n8 4 2\ni0 enable\n"
    make(scratch / "circuit.aag", text)
    run, told, status = program(scratch, "aigmc", "cover", "circuit.aag", "--depth", "3")
    expect((told, status), (b"", 0), "what cover says, and its status")
    first, name, state, *times, last = run.decode().split("\n")[:-1]
    expect((first, name, state[0], len(state), len(times), last), ("1", "b2", "0", 2, 4, "."), "the run")
    # the first latch is set at the times 1 and 3, and the constraint wants the input 0 then
    expect([times[1], times[3]], ["0", "0"], "the inputs that the constraint decides")
    make(scratch / "run", run)
    table, told, status = program(scratch, "aigmc", "sim", "circuit.aag", "run")
    rows = [line.split(" ") for line in table.decode().splitlines()]
    expect((told, status, [row[1][0] for row in rows]), (b"", 0, ["0", "1", "0", "1", "0"]), "the replay's states")
    expect(program(scratch, "aigmc", "trace", "circuit.aag", "run")[1:], (b"", 0), "what trace says, and its status")
    expect(program(scratch, "aigcheck", "run", "circuit.aag", "run"), (b"no 30\n", b"", 1), "what the judge says")
    # with a third bad literal that is always set it is a violation at the run's end
    make(scratch / "set.aag", text.replace("1 2 1\n", "1 3 1\n").replace("\n0\n6\n", "\n0\n6\n1\n"))
    said = program(scratch, "aigcheck", "run", "set.aag", "run")
    expect(said, (b"yes run b2\n", b"", 0), "whether the constraints are kept")


def has_run(circuit, steps):
    """Whether a run of so many steps keeps the constraints at each of its times."""
    states = set(circuit.initial_states())
    for _ in range(steps):
        states = {circuit.next_state(values) for state in states for values in circuit.times_in(state)}
    return any(True for state in states for _ in circuit.times_in(state))


def with_true(circuit, text):
    """The text of the circuit with the constant true behind its bad literals, which each run that keeps the constraints
    violates."""
    header, *lines = text.split("\n")
    counts = header.split()
    counts[6] = str(len(circuit.bad) + 1)
    at = len(circuit.inputs) + len(circuit.latches) + len(circuit.outputs) + len(circuit.bad)
    return "\n".join([" ".join(counts), *lines[:at], "1", *lines[at:]])


def is_covered(scratch, text, steps):
    """Whether aigmc has a run of so many steps, which aigcheck accepts as a violation of the constant true."""
    circuit = EXHAUSTIVE.Circuit(text)
    make(scratch / "circuit.aag", text)
    run, told, status = program(scratch, "aigmc", "cover", "circuit.aag", "--depth", str(steps))
    if status != 0:
        said = b"aigmc: no run keeps the constraints for %d steps\n" % steps
        expect((run, told, status), (b"", said, 1), "what it does where there is none")
        return False
    make(scratch / "true.aag", with_true(circuit, text))
    make(scratch / "run", run)
    said = (b"yes run b%d\n" % len(circuit.bad), b"", 0)
    expect(program(scratch, "aigcheck", "run", "true.aag", "run"), said, "what the judge says")
    expect((told, len(run.splitlines())), (b"", steps + 5), "what it says, and the length of the run")
    return True


@case("aigmc cover: what exhaustive search says of small circuits")
def runs(scratch):
    source, lost, found = random.Random(21), [], Counter()
    texts = [EXHAUSTIVE.generated(source, False) for _ in range(60)]
    for text, steps in itertools.product(texts, (0, 1, 3, 8)):
        wanted = has_run(EXHAUSTIVE.Circuit(text), steps)
        found[wanted] += 1
        if is_covered(scratch, text, steps) != wanted:
            lost.append((text, steps, wanted))
    expect(lost, [], "the circuits of which something else is said")
    expect(len(found) == 2 and min(found.values()) > 10, True, f"whether there are many of both: {found}")
