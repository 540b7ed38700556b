"""Cases of bin/aigmc-hwmcc and bin/properties."""

import os
import signal

from trial import BOTH, HOLDS, PROGRAMS, VIOLATED, Place, call, case, counter, expect, make, stopped

OUTPUTS = "aag 2 0 2 2 0\n2 2\n4 5\n2\n4\n"
JUSTICE = "aag 1 0 1 0 0 1 0 1\n2 3\n0\n1\n2\n"


def answer(place, *words, **more):
    """What aigmc-hwmcc puts, and its status."""
    done = place.call("aigmc-hwmcc", *words, **more)
    return done.out, done.status


@case("aigmc-hwmcc: the one property of a circuit")
def one(scratch):
    place = Place(scratch)
    for text, wanted in (
        (HOLDS, (b"0\nb0\n.\n", 20)),
        (VIOLATED, (b"1\nb0\n0\n\n\n.\n", 10)),
        ("aag 1 0 1 1 0\n2 3\n2\n", (b"1\nb0\n0\n\n\n.\n", 10)),
    ):
        place.circuit(text)
        expect(answer(place, "circuit.aag", "60"), wanted, repr(text))


@case("aigmc-hwmcc: the time is over")
def over(scratch):
    place = Place(scratch)
    place.circuit(counter(64))
    expect(answer(place, "circuit.aag", "0.5"), (b"2\nb0\n.\n", 0), "what it does")


@case("aigmc-hwmcc: several properties, none of which is named")
def several(scratch):
    place = Place(scratch)
    place.circuit(BOTH)
    done = place.call("aigmc-hwmcc", "circuit.aag")
    expect((done.status, done.out), (3, b""), "what it does")
    said = b"aigmc-hwmcc: circuit.aag has 2 properties, b0 to b1: -p names the one to ask about\n"
    expect(done.told, said, "what it says")


@case("aigmc-hwmcc: the property that is named")
def named(scratch):
    place = Place(scratch)
    for text, name, wanted in (
        (BOTH, "b0", (b"0\nb0\n.\n", 20)),
        (BOTH, "b1", (b"1\nb1\n00\n\n\n.\n", 10)),
        (OUTPUTS, "o0", (b"0\nb0\n.\n", 20)),
        (OUTPUTS, "o1", (b"1\nb1\n00\n\n\n.\n", 10)),
        (JUSTICE, "b0", (b"0\nb0\n.\n", 20)),
        (BOTH, "turns", (b"1\nb1\n00\n\n\n.\n", 10)),
        (BOTH, 'stays, "so"', (b"0\nb0\n.\n", 20)),
        (OUTPUTS + "o1 low\n", "low", (b"1\nb1\n00\n\n\n.\n", 10)),
        (BOTH.replace("turns", "b0"), "b0", (b"0\nb0\n.\n", 20)),
        (BOTH.replace("turns", 'stays, "so"'), 'stays, "so"', (b"", 3)),
        (BOTH, "turn", (b"", 3)),
        (BOTH, "b2", (b"", 3)),
        (BOTH, "o0", (b"", 3)),
    ):
        place.circuit(text)
        expect(answer(place, "circuit.aag", "-p", name), wanted, f"{name} of {text!r}")
    place.circuit(JUSTICE)
    out, status = answer(place, "-p", "j0", "circuit.aag", "60")
    make(scratch / "lasso", out)
    expect(status, 10, "the status of j0")
    judged = call(PROGRAMS["aigcheck"], "run", "circuit.aag", "lasso", cwd=scratch).out
    expect(judged, b"yes run j0\n", "what the judge says of j0")


@case("aigmc-hwmcc: odd names, no circuit, bad words")
def odd(scratch):
    place = Place(scratch)
    make(scratch / "-d.aag", HOLDS)
    make(scratch / os.fsdecode(b"n\xff.aag"), HOLDS)
    make(scratch / "words", "no circuit\n")
    expect(answer(place, "--", "-d.aag", "60"), (b"0\nb0\n.\n", 20), "-d.aag")
    expect(answer(place, b"n\xff.aag"), (b"0\nb0\n.\n", 20), "a name that is not UTF-8")
    for words in ("", "words", "none", ".", "-d.aag", "-- -d.aag 0", "-- -d.aag 1m", "-- -d.aag 1 2", "-p b0"):
        expect(answer(place, *words.split()), (b"", 3), repr(words))


@case("aigmc-hwmcc: a full device")
def full(scratch):
    place = Place(scratch)
    place.circuit(VIOLATED)
    with open("/dev/full", "wb") as device:
        expect(place.call("aigmc-hwmcc", "circuit.aag", stdout=device).status, 3, "the status")


@case("aigmc-hwmcc: an aigmc that fails")
def fails(scratch):
    place = Place(scratch)
    place.circuit(HOLDS)
    place.wrap("aigmc", "echo no more >&2; exit 3")
    done = place.call("aigmc-hwmcc", "circuit.aag")
    expect((done.out, done.told, done.status), (b"", b"no more\n", 3), "what it does")


def stops(number):
    """A case of a signal that stops a call."""

    @case(f"aigmc-hwmcc: {number.name}")
    def signalled(scratch):
        place = Place(scratch)
        place.circuit(counter(64))
        _, out, told = stopped(place, number, "aigmc-hwmcc", "circuit.aag")
        expect((out, told), (b"", b"aigmc-hwmcc: stopped\n"), "what it puts")


for signal_number in (signal.SIGTERM, signal.SIGINT):
    stops(signal_number)


@case("properties: the names of each kind")
def properties(scratch):
    place = Place(scratch)
    make(scratch / "-d.aag", HOLDS)
    for text, wanted in ((BOTH, b"b0\nb1\n"), (OUTPUTS, b"o0\no1\n"), (JUSTICE, b"b0\nj0\n"), ("aag 0 0 0 0 0\n", b"")):
        place.circuit(text)
        done = place.call("properties", "circuit.aag")
        expect((done.out, done.status), (wanted, 0), repr(text))
    expect(place.call("properties", "--", "-d.aag").out, b"b0\n", "a file whose name begins with -")
    for words in ((), ("none",), ("-d.aag",), ("a", "b")):
        expect(place.call("properties", *words).status, 3, repr(words))
    for name, why in ((".", b"it is a folder"), ("/dev/zero", b"it is no file"), ("none", b"No such file or directory")):
        expect(place.call("properties", name).told, b"properties: %s: %s\n" % (name.encode(), why), f"what is said of {name}")
