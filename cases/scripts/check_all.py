"""Cases of bin/check-all."""

import csv
import functools
import json
import os
import re
import resource
import shutil
import signal
import subprocess

from trial import BOTH, HOLDS, PROGRAMS, VIOLATED, Place
from trial import call, case, counter, expect, held, is_there, make, stopped, wait_for

YES_HOLDS = [("b0", "holds", "yes")]
YES_VIOLATED = [("b0", "violated", "yes")]


def judged(place, done, circuit="circuit.aag"):
    """What the judge says of the evidence that a table names, in the order of its rows."""
    said = []
    for row in csv.DictReader(done.out.decode().splitlines()):
        command = {"holds": "safe", "violated": "run"}[row["verdict"]]
        said.append(call(PROGRAMS["aigcheck"], command, circuit, row["evidence"], cwd=place.folder).out)
    return said


def expect_table(done, status, rows, what):
    """Complains where a call ended otherwise, or its table has other rows."""
    expect((done.status, done.rows()), (status, rows), what)


def stale(place):
    """A place where the table says of a circuit that it holds."""
    place.circuit(HOLDS)
    expect_table(place.check("circuit.aag"), 0, YES_HOLDS, "the first table")


@case("check-all: two folders with a file of one name")
def one_name(scratch):
    place = Place(scratch)
    for folder, text in (("one", HOLDS), ("other", VIOLATED)):
        (scratch / folder).mkdir()
        make(scratch / folder / "circuit.aag", text)
    expect_table(place.check("one/circuit.aag"), 0, YES_HOLDS, "the one")
    expect_table(place.check("other/circuit.aag"), 1, YES_VIOLATED, "the other")
    expect_table(place.check("one/circuit.aag"), 0, YES_HOLDS, "the one again")


@case("check-all: a circuit with an older time stamp")
def older(scratch):
    place = Place(scratch)
    stale(place)
    os.utime(place.circuit(VIOLATED), (1, 1))
    expect_table(place.check("circuit.aag"), 1, YES_VIOLATED, "the table")


@case("check-all: evidence that is gone")
def gone(scratch):
    place = Place(scratch)
    stale(place)
    (scratch / "made/circuit.aag/b0.cert").unlink()
    done = place.check("circuit.aag")
    expect_table(done, 0, YES_HOLDS, "the table")
    expect(judged(place, done), [b"yes safe b0\n"], "the evidence")


@case("check-all: evidence that is junk")
def junk(scratch):
    place = Place(scratch)
    stale(place)
    make(scratch / "made/circuit.aag/b0.cert", "junk\n")
    done = place.check("circuit.aag")
    expect_table(done, 0, YES_HOLDS, "the table")
    expect(judged(place, done), [b"yes safe b0\n"], "the evidence")


@case("check-all: evidence of another property")
def another_property(scratch):
    place = Place(scratch)
    place.circuit("aag 2 0 2 0 0 2\n2 2\n4 4\n2\n4\n")
    expect(place.check("circuit.aag").status, 0, "the first status")
    folder = scratch / "made/circuit.aag"
    shutil.copy(folder / "b0.cert", folder / "b1.cert")
    done = place.check("circuit.aag")
    expect(judged(place, done), [b"yes safe b0\n", b"yes safe b1\n"], "the evidence")


@case("check-all: a search that makes no file, behind a result of an older circuit")
def no_space(scratch):
    place = Place(scratch)
    place.circuit(VIOLATED)
    expect_table(place.check("circuit.aag"), 1, YES_VIOLATED, "the first table")
    place.circuit(HOLDS)
    limit = functools.partial(resource.setrlimit, resource.RLIMIT_FSIZE, (40, 40))
    expect_table(place.check("circuit.aag", preexec_fn=limit), 3, [("b0", "failed", "")], "the table without space")
    expect_table(place.check("circuit.aag"), 0, YES_HOLDS, "the table behind it")


@case("check-all: evidence that is gone while the search fails")
def gone_and_failed(scratch):
    place = Place(scratch)
    stale(place)
    (scratch / "made/circuit.aag/b0.cert").unlink()
    place.wrap("aigmc", "exit 3")
    expect_table(place.check("circuit.aag"), 3, [("b0", "failed", "")], "the table")


@case("check-all: a full device")
def full(scratch):
    place = Place(scratch)
    place.circuit(HOLDS)
    with open("/dev/full", "wb") as device:
        done = place.check("circuit.aag", stdout=device)
    expect(done.status, 3, "the status")
    expect(done.told.splitlines()[1:], [b"check-all: No space left on device"], "what it says")


@case("check-all: standard output that is closed")
def closed(scratch):
    place = Place(scratch)
    place.circuit(HOLDS)
    expect(place.check("circuit.aag", preexec_fn=functools.partial(os.close, 1)).status, 3, "the status")


@case("check-all: a folder of the evidence that is a file")
def out_is_file(scratch):
    place = Place(scratch)
    make(scratch / "made", "mine\n")
    place.circuit(VIOLATED)
    done = place.check("circuit.aag")
    expect((done.status, done.out, (scratch / "made").read_text()), (3, b"", "mine\n"), "what it does")


def stops(number):
    """A case of a signal that stops a call."""

    @case(f"check-all: {number.name}")
    def signalled(scratch):
        place = Place(scratch)
        names = [place.circuit(counter(64), f"{k}.aag").name for k in range(3)]
        _, out, told = stopped(place, number, "check-all", "--jobs", "2", "--out", "made", *names)
        expect((out, told), (b"", b"check-all: stopped\n"), "what it puts")
        expect([path for path in (scratch / "made").rglob("*") if path.name not in names], [], "what it leaves")


for signal_number in (signal.SIGTERM, signal.SIGINT, signal.SIGHUP):
    stops(signal_number)


@case("check-all: SIGKILL, and the same call again")
def killed(scratch):
    place = Place(scratch)
    place.circuit(counter(64))
    search, _, _ = stopped(place, signal.SIGKILL, "check-all", "--out", "made", "circuit.aag")
    wait_for(lambda: not is_there(search), "aigmc goes on")
    expect(len(os.listdir(scratch / "made/circuit.aag")), 1, "how many scratch folders are left")
    expect_table(place.check("--limit", "1", "circuit.aag"), 2, [("b0", "limit", "")], "the table")
    expect(os.listdir(scratch / "made/circuit.aag"), ["b0.result"], "the files")


@case("check-all: results that are empty or torn")
def torn(scratch):
    place = Place(scratch)
    place.circuit(counter(64))
    limit = ("--limit", "1", "circuit.aag")
    expect_table(place.check(*limit), 2, [("b0", "limit", "")], "the first table")
    result = scratch / "made/circuit.aag/b0.result"
    text = result.read_bytes()
    for kept, asked in ((len(text), 0), (0, 1), (len(text) // 2, 1)):
        result.write_bytes(text[:kept])
        done = place.check(*limit)
        expect_table(done, 2, [("b0", "limit", "")], f"the table with {kept} bytes of the result")
        expect(len(done.told.splitlines()), asked, f"how often it asks with {kept} bytes of the result")


@case("check-all: results that are empty beside evidence")
def empty(scratch):
    place = Place(scratch)
    stale(place)
    make(scratch / "made/circuit.aag/b0.result", "")
    done = place.check("circuit.aag")
    expect_table(done, 0, YES_HOLDS, "the table")
    expect(done.told, b"circuit.aag b0: holds, 0 s, checked: yes\n", "what it says")
    expect(place.check("circuit.aag").told, b"", "what the next call says")


@case("check-all: results of another aigmc, and with another limit")
def tied(scratch):
    place = Place(scratch)
    place.circuit(counter(64))
    asked = []
    for limit, comment in (("2", "one"), ("2", "one"), ("1", "one"), ("3", "one"), ("1", "other")):
        place.wrap("aigmc", f": {comment}")
        done = place.check("--limit", limit, "circuit.aag")
        expect_table(done, 2, [("b0", "limit", "")], "the table")
        asked.append(len(done.told.splitlines()))
    expect(asked, [1, 0, 0, 1, 1], "how often it asks")


def replaced(name, text, row):
    """A case of a circuit that is replaced while it is searched."""

    @case(f"check-all: {name} that is replaced while it is searched")
    def during(scratch):
        place = Place(scratch)
        make(scratch / "new", VIOLATED)
        place.circuit(text)
        place.wrap("aigmc", f"cp {scratch}/new {scratch}/circuit.aag")
        done = place.check("circuit.aag")
        expect_table(done, 3, [row], "the table")
        expect(b"circuit.aag was replaced meanwhile" in done.told, True, "whether it says so")
        expect(os.listdir(scratch / "made/circuit.aag"), [], "the files")
        place.unwrap("aigmc")
        expect_table(place.check("circuit.aag"), 1, YES_VIOLATED, "the next table")


replaced("a circuit", HOLDS, ("b0", "changed", ""))
replaced("a circuit with two properties", BOTH, ("b0", "changed", ""))


@case("check-all: a circuit that is replaced before a search")
def replaced_before(scratch):
    place = Place(scratch)
    make(scratch / "new", counter(63, 3))
    place.circuit(counter(64, 3))
    place.wrap("aigmc", f'echo "$1" >> {scratch}/calls; cp {scratch}/new {scratch}/circuit.aag')
    done = place.check("--limit", "1", "circuit.aag")
    expect_table(done, 3, [(name, "changed", "") for name in ("b0", "b1", "b2")], "the table")
    expect((scratch / "calls").read_text(), "all\n", "the calls of aigmc")


@case("check-all: a circuit that is replaced while its evidence is judged")
def replaced_behind(scratch):
    place = Place(scratch)
    stale(place)
    make(scratch / "new", VIOLATED)
    place.wrap("aigcheck", f"cp {scratch}/new {scratch}/circuit.aag")
    expect_table(place.check("circuit.aag"), 3, [("b0", "changed", "")], "the table")
    expect_table(place.check("circuit.aag"), 1, YES_VIOLATED, "the next table")


@case("check-all: evidence that can't be put where it belongs")
def no_place(scratch):
    place = Place(scratch)
    place.circuit(BOTH)
    (scratch / "made/circuit.aag/b0.cert").mkdir(parents=True)
    expect_table(place.check("circuit.aag"), 3, [("b0", "failed", ""), ("b1", "violated", "yes")], "the table")
    (scratch / "made/circuit.aag/b0.cert").rmdir()
    expect_table(place.check("circuit.aag"), 1, [("b0", "holds", "yes"), ("b1", "violated", "yes")], "the next table")


@case("check-all: a circuit that is taken away while it is searched")
def taken_away(scratch):
    place = Place(scratch)
    place.circuit(HOLDS)
    place.wrap("aigmc", f"rm {scratch}/circuit.aag")
    expect_table(place.check("circuit.aag"), 3, [("", "failed", "")], "the table")


@case("check-all: a shorter limit keeps certificates")
def shorter(scratch):
    place = Place(scratch)
    stale(place)
    folder = scratch / "made/circuit.aag"
    text = (folder / "b0.cert").read_bytes()
    (folder / "b0.result").unlink()
    os.utime(scratch / "circuit.aag")
    place.wrap("aigmc", "exec sleep 5")
    expect_table(place.check("--limit", "1", "circuit.aag"), 0, YES_HOLDS, "the table")
    expect((folder / "b0.cert").read_bytes(), text, "the certificate")
    place.circuit(VIOLATED)
    expect_table(place.check("--limit", "1", "circuit.aag"), 2, [("b0", "limit", "")], "the table of another circuit")
    expect((folder / "b0.cert").read_bytes(), text, "the certificate of the circuit before")


@case("check-all: evidence that the judge refuses takes no place")
def refused(scratch):
    place = Place(scratch)
    stale(place)
    text = (scratch / "made/circuit.aag/b0.cert").read_bytes()
    place.circuit(VIOLATED)
    (place.bin / "aigmc").unlink()
    make(place.bin / "aigmc", "#!/bin/sh\necho junk > b0.cert\nprintf '0\\nb0\\n.\\n'\n").chmod(0o755)
    expect_table(place.check("circuit.aag"), 3, [("b0", "holds", "no")], "the table")
    objects = [json.loads(line) for line in place.check("--json", "circuit.aag").out.splitlines()]
    expect([it["checked"] for it in objects], [False], "what JSON says of it")
    expect(sorted(os.listdir(scratch / "made/circuit.aag")), ["b0.cert", "b0.result"], "the files")
    expect((scratch / "made/circuit.aag/b0.cert").read_bytes(), text, "the certificate of the circuit before")
    place.unwrap("aigmc")
    expect_table(place.check("circuit.aag"), 1, YES_VIOLATED, "the table of the true aigmc")


@case("check-all: a file whose name begins with -")
def dashed(scratch):
    place = Place(scratch)
    place.circuit(VIOLATED, "-d.aag")
    expect_table(place.check("--", "-d.aag"), 1, YES_VIOLATED, "the table")
    place.circuit(VIOLATED, "-")
    expect_table(place.check("--", "-"), 1, YES_VIOLATED, "the table of a file called -")


@case("check-all: names that are not UTF-8")
def bytes_in_names(scratch):
    place = Place(scratch)
    name = b"n\xff,\".aag"
    make(scratch / os.fsdecode(name), VIOLATED)
    done = place.call("check-all", "--out", b"m\xfe", name)
    _, row, _ = done.out.split(b"\n")
    quoted = name.replace(b'"', b'""')
    expect(done.status, 1, "the status")
    expect(row.startswith(b'"' + quoted + b'",b0,violated,'), True, f"the row {row!r}")
    end = re.escape(b',"m\xfe/' + quoted + b'/b0.stim",yes,,') + b"[0-9]+"
    expect(bool(re.search(end + b"$", row)), True, f"the end of the row {row!r}")


@case("check-all: two files of one name in one call")
def same_name(scratch):
    place = Place(scratch)
    (scratch / "below").mkdir()
    place.circuit(HOLDS)
    place.circuit(VIOLATED, "below/circuit.aag")
    done = place.check("circuit.aag", "below/circuit.aag")
    expect((done.status, done.out), (3, b""), "what it does")
    expect(done.told, b"check-all: two circuits have the name circuit.aag, and so one folder\n", "what it says")
    expect((scratch / "made").exists(), False, "whether the folder was made")


@case("check-all: what is no circuit")
def no_circuit(scratch):
    place = Place(scratch)
    for name, text in (("words", "no circuit\n"), ("counts", "aag 1 0 1 0 0 999999999\n2 2\n"), ("cut", HOLDS[:-2])):
        place.circuit(text, name)
    (scratch / "folder").mkdir()
    done = place.check("words", "counts", "cut", "folder", "none", "folder/..")
    expect_table(done, 3, [("", "failed", "")] * 2 + [("b0", "failed", "")] + [("", "failed", "")] * 3, "the table")
    expect(b"\ncut b0: failed: aigmc: fault 6 at 20\n" in done.told, True, "whether it says why")


@case("check-all: one call asks about the easy properties of a file, and one each about the others")
def few_calls(scratch):
    place = Place(scratch)
    place.circuit(held(100))
    place.circuit(counter(64, 3), "hard.aag")
    place.wrap("aigmc", f'echo "$1" "$4" >> {scratch}/calls')
    done = place.check("--limit", "3", "circuit.aag", "hard.aag")
    rows = [(f"b{k}", "holds", "yes") for k in range(100)]
    expect_table(done, 2, rows + [("b0", "holds", "yes"), ("b1", "limit", ""), ("b2", "holds", "yes")], "the table")
    expect(sorted((scratch / "calls").read_text().splitlines()), ["all .", "all .", "check b1"], "the calls of aigmc")
    (scratch / "calls").unlink()
    for name in ("b7", "b70"):
        (scratch / f"made/circuit.aag/{name}.cert").unlink()
    expect_table(place.check("circuit.aag"), 0, rows, "the table where evidence is gone")
    expect(sorted((scratch / "calls").read_text().splitlines()), ["check b7", "check b70"], "the calls of aigmc then")


@case("check-all: evidence that one call does not judge in time")
def judged_one_by_one(scratch):
    place = Place(scratch)
    place.circuit(BOTH)
    rows = [("b0", "holds", "yes"), ("b1", "violated", "yes")]
    expect_table(place.check("circuit.aag"), 1, rows, "the first table")
    place.wrap("aigmc", "exit 3")
    place.wrap("aigcheck", f'echo "$1" >> {scratch}/calls; [ "$1" != all ] || exec sleep 60')
    expect_table(place.check("circuit.aag"), 1, rows, "the table")
    expect(sorted((scratch / "calls").read_text().splitlines()), ["all", "run", "safe"], "the calls of aigcheck")


@case("check-all: calls side by side")
def beside(scratch):
    place = Place(scratch)
    for name in ("a", "b", "c"):
        place.circuit(HOLDS, name)
    place.wrap("aigmc", f"echo begins >> {scratch}/calls\nsleep 1\necho goes on >> {scratch}/calls")
    expect_table(place.check("--jobs", "2", "a", "b", "c"), 0, YES_HOLDS * 3, "the table")
    expect((scratch / "calls").read_text().splitlines()[:3], ["begins", "begins", "goes on"], "the calls of aigmc")


@case("check-all: calls that share a folder")
def shared(scratch):
    place = Place(scratch)
    names = [f"{k}.aag" for k in range(6)]
    for k, name in enumerate(names):
        place.circuit((HOLDS, VIOLATED)[k % 2], name)
    words = [place.bin / "check-all", "--out", "made"]
    nothing = {"stdout": subprocess.DEVNULL, "stderr": subprocess.DEVNULL}
    running = [subprocess.Popen([*words, *names[k : k + 4]], cwd=scratch, **nothing) for k in (0, 1, 2)]
    statuses = [it.wait(60) for it in running]
    expect(statuses, [1, 1, 1], "the statuses")
    place.wrap("aigmc", "exit 3")
    expect_table(place.check(*names), 1, (YES_HOLDS + YES_VIOLATED) * 3, "the last table")


@case("check-all: names of properties, and --json")
def named(scratch):
    place = Place(scratch)
    place.circuit(BOTH)
    table = place.check("circuit.aag").out.decode()
    head = "file,property,verdict,seconds,evidence,checked,name,steps\n"
    expect(table.partition("\n")[0] + "\n", head, "the head")
    names = [row["name"] for row in csv.DictReader(table.splitlines())]
    expect(names, ['stays, "so"', "turns"], "the names")
    objects = [json.loads(line) for line in place.check("--json", "circuit.aag").out.splitlines()]
    keys = ["file", "property", "name", "verdict", "evidence", "checked", "seconds", "steps"]
    expect([list(it) for it in objects], [keys] * 2, "the keys")
    expect([0 <= it["seconds"] < 60 for it in objects], [True] * 2, "whether the seconds can be")
    found = [(it["property"], it["verdict"], it["evidence"], it["checked"], it["name"]) for it in objects]
    folder = "made/circuit.aag"
    first = ("b0", "holds", f"{folder}/b0.cert", True, 'stays, "so"')
    expect(found, [first, ("b1", "violated", f"{folder}/b1.stim", True, "turns")], "the objects")


@case("check-all: a circuit without properties")
def without_properties(scratch):
    place = Place(scratch)
    place.circuit("aag 1 1 0 0 0\n2\n")
    done = place.check("circuit.aag")
    expect((done.status, done.rows(), done.told), (2, [], b"circuit.aag has no property\n"), "what it does")
    make(scratch / "holds.aag", HOLDS)
    make(scratch / "violated.aag", VIOLATED)
    expect_table(place.check("circuit.aag", "holds.aag"), 2, YES_HOLDS, "the table beside one that holds")
    expect_table(place.check("circuit.aag", "violated.aag"), 1, YES_VIOLATED, "the table beside one that is violated")


@case("check-all: constraints that no run keeps")
def vacuous(scratch):
    place = Place(scratch)
    said = b"circuit.aag no run keeps its constraints, so every property holds\n"
    for constraint, is_said in ((0, True), (2, False), (5, False)):
        place.circuit(f"aag 2 1 1 0 0 1 1\n2\n4 1\n0\n{constraint}\n")
        for _ in range(2):
            done = place.check("circuit.aag")
            expect_table(done, 0, YES_HOLDS, "the table")
            expect(done.told.count(said), int(is_said), f"how often it is said of the constraint {constraint}")


@case("check-all --json: null for what there is not")
def without_values(scratch):
    place = Place(scratch)
    place.circuit(counter(64))
    make(scratch / "empty.aag", "junk")
    out = place.check("circuit.aag", "--limit", "1", "empty.aag", "--json").out
    found = [json.loads(line) for line in out.splitlines()]
    nothing = dict.fromkeys(("name", "evidence", "checked", "steps"))
    expect(1 <= found[0].pop("seconds") < 60, True, "whether the seconds can be")
    limit = {"file": "circuit.aag", "property": "b0", "verdict": "limit"}
    failed = {"file": "empty.aag", "property": None, "verdict": "failed", "seconds": None}
    expect(found, [limit | nothing, failed | nothing], "the objects")


@case("check-all: the steps that aigmc says")
def steps_are_said(scratch):
    place = Place(scratch)
    place.circuit(BOTH)
    said = """sed 's/,"steps":[0-9]*//; s/,"reason"/,"steps":123456789012,"reason"/'"""
    place.wrap("aigmc", f"{PROGRAMS['aigmc']} \"$@\" | {said}; exit 1")
    for _ in range(2):
        table = csv.DictReader(place.check("circuit.aag").out.decode().splitlines())
        expect([row["steps"] for row in table], ["123456789012"] * 2, "the steps in the table")
        found = [json.loads(line)["steps"] for line in place.check("--json", "circuit.aag").out.splitlines()]
        expect(found, [123456789012] * 2, "the steps in the objects")
    make(scratch / "made/circuit.aag/b1.result", "junk")
    table = csv.DictReader(place.check("circuit.aag").out.decode().splitlines())
    expect([(row["checked"], row["steps"]) for row in table], [("yes", "123456789012")] * 2, "what is kept, and asked anew")


# Circuits, and the names of their properties. The gates of the first one, in binary, are bytes that look like a symbol.
NAMED = (
    (b"aig 73 70 0 0 3 1\n142\n\nb0 x\nb0 first\n", ["first"]),
    (b"aig 3 1 1 0 1 1 0 1\n6\n2\n1\n5\n\x02\x02i0 b9 no\nl0 b0\nb0 first\nj0 second\nc\nb0 no\n", ["first", "second"]),
    (b"aag 3 1 1 1 1 1 1 1 1\n2\n4 6\n4\n6\n1\n2\n4\n6\n4\n6 4 2\ni0 no\nb0 first\nj0 second\n", ["first", "second"]),
    (b"aag 1 0 1 1 0\n2 3\n2\no0 out\n", ["out"]),
    (b"aag 1 0 1 0 0 2\n2 3\n2\n2\nb1 second \xff\nc\nb0 no\n", ["", "second \udcff"]),
    (b"aag 1 0 1 0 0 1\n2 3\n2\nc\nb0 no\n", [""]),
)


@case("check-all: names of properties in each layout")
def names_in_layouts(scratch):
    place = Place(scratch)
    for text, wanted in NAMED:
        make(scratch / "circuit", text)
        done = place.check("circuit")
        rows = csv.DictReader(done.out.decode(errors="surrogateescape").splitlines())
        found = [(row["name"], row["checked"]) for row in rows]
        expect(found, [(name, "yes") for name in wanted], f"the names and checks of {text!r}")


@case("check-all: bad words")
def bad_words(scratch):
    place = Place(scratch)
    place.circuit(HOLDS)
    behind = ("circuit.aag -x", "circuit.aag --out", "circuit.aag --json=yes")
    for words in ("", "--jobs 0 circuit.aag", "--limit 1.5 circuit.aag", "--limit", "-x circuit.aag", "--", *behind):
        done = place.call("check-all", *words.split())
        is_usage = done.told.startswith(b"check-all: it is called bin/check-all ")
        expect((done.status, done.out, is_usage), (3, b"", True), f"what it does with {words}")
