"""Random pairs of circuits: the conditions by formulas, and over all values straight from their definitions."""

import itertools
import pathlib
import random
import sys
from collections import Counter, namedtuple
from importlib.machinery import SourceFileLoader

from solver import model_of

FOLDER = pathlib.Path(__file__).resolve().parent
TOP = FOLDER.parent.parent
sys.path[:0] = [str(TOP / "tools"), str(TOP / "share" / "lugyveron")]
EXHAUSTIVE = SourceFileLoader("exhaustive", str(FOLDER.parent / "exhaustive")).load_module()

from witnesses import aiger, conditions

# Of each kind of pairs.
SEED, COUNT = 65, 300

# How often each condition has to fail among the random pairs, and how often none: else they show too little.
LEAST = 10

# How many random pairs are tried for one of which just one condition fails; about one in thirty is.
TRIES = 10000

value_of = EXHAUSTIVE.value_of

# A circuit that is drawn: inputs, latches (literal, next, reset), bad literal, constraints, gates.
Drawn = namedtuple("Drawn", "inputs latches bad constraints gates")


def most(drawn):
    """The greatest variable of a circuit."""
    return drawn.inputs + len(drawn.latches) + len(drawn.gates)


def draw(rng, is_witness):
    """A circuit with few inputs, latches and gates. A witness's resets may be any literals."""
    inputs, latches, gates = rng.randrange(2), rng.randrange(1, 3), rng.randrange(3)
    top = 2 * (inputs + latches + gates) + 2
    own = [2 * (inputs + at) + 2 for at in range(latches)]
    resets = [rng.choice((0, 0, 1, lit, rng.randrange(top) if is_witness else 0)) for lit in own]
    states = [(lit, rng.randrange(top), reset) for lit, reset in zip(own, resets)]
    lits = [2 * (inputs + latches + at) + 2 for at in range(gates)]
    ands = [(lit, rng.randrange(lit), rng.randrange(lit)) for lit in lits]
    return Drawn(inputs, states, rng.randrange(top), [rng.randrange(top)] * rng.choice((0, 0, 1)), ands)


def changed(rng, model):
    """The model as it is, or with another bad literal, constraint, next literal or reset."""
    lit, at = rng.randrange(2 * most(model) + 2), rng.randrange(len(model.latches))
    own, following, reset = model.latches[at]
    latch = rng.choice(((own, lit, reset), (own, following, lit)))
    latches = [*model.latches[:at], latch, *model.latches[at + 1 :]]
    changes = ({}, {}, {"bad": lit}, {"constraints": [lit]}, {"constraints": []}, {"latches": latches})
    return model._replace(**rng.choice(changes))


def extended(rng, model):
    """The model with one or two further latches that begin with any literals, and a further gate that is bad too."""
    first = 2 * most(model) + 2
    top = first + 2 * rng.randrange(1, 3)
    latches = [(lit, rng.choice((lit, rng.randrange(top))), rng.randrange(top)) for lit in range(first, top, 2)]
    gates = [(top, rng.randrange(top), rng.randrange(top)), (top + 2, top + 1, model.bad ^ 1)]
    return model._replace(latches=model.latches + latches, bad=top + 3, gates=model.gates + gates)


def paired(rng, model):
    """The model with a further latch that goes as the first one or against it, or otherwise; it is bad too where the
    two do not stand so to one another."""
    (own, following, _), lit, sign = model.latches[0], 2 * most(model) + 2, rng.randrange(2)
    alike = following ^ own ^ lit if following & ~1 == own else following ^ sign
    goes, begins = (alike, following ^ sign, rng.randrange(lit + 2)), (own ^ sign, own ^ sign, sign)
    latch = (lit, rng.choice(goes), rng.choice(begins))
    gates = [(lit + 2, own, lit ^ 1 ^ sign), (lit + 4, own ^ 1, lit ^ sign), (lit + 6, lit + 3, lit + 5)]
    gates.append((lit + 8, lit + 6, model.bad ^ 1))
    return model._replace(latches=[*model.latches, latch], bad=lit + 9, gates=model.gates + gates)


def named(rng, model, witness):
    """Lines of a symbol table by which the witness shares some of its latches, or none, so that it goes by position."""
    lits = rng.sample([lit for lit, _, _ in model.latches], len(model.latches))
    pairs = zip(range(len(witness.latches)), lits)
    lines = [f"l{at} = {lit}\n" for at, lit in pairs if rng.randrange(3)]
    return "".join(lines) if rng.randrange(3) == 0 else ""


def text_of(drawn):
    """The circuit in ASCII."""
    head = f"aag {most(drawn)} {drawn.inputs} {len(drawn.latches)} 0 {len(drawn.gates)} 1 {len(drawn.constraints)}"
    rows = [[2 * at + 2] for at in range(drawn.inputs)] + drawn.latches + [[drawn.bad]]
    rows += [[lit] for lit in drawn.constraints] + drawn.gates
    return "\n".join([head, *(" ".join(map(str, row)) for row in rows), ""])


def valuations(circuit):
    """The values of all variables in each state under each input."""
    states = itertools.product((False, True), repeat=len(circuit.latches))
    inputs = list(itertools.product((False, True), repeat=len(circuit.inputs)))
    return [circuit.valuation(state, given) for state in states for given in inputs]


def keeps(circuit, *times):
    """Whether all constraints are true at these times."""
    return all(value_of(values, lit) for values in times for lit in circuit.constraints)


def is_reset(circuit, values, among):
    """Whether those of its latches have their resets."""
    latches = [(lit, reset) for lit, _, reset in circuit.latches if lit in among]
    return all(value_of(values, lit) == value_of(values, reset) for lit, reset in latches)


def follows(circuit, values, then, among):
    """Whether those of its latches have their next values."""
    latches = [(lit, following) for lit, following, _ in circuit.latches if lit in among]
    return all(value_of(then, lit) == value_of(values, following) for lit, following in latches)


def begins(circuit, values, among):
    """Whether it is a time with the constraints in which those of its latches have their resets."""
    return keeps(circuit, values) and is_reset(circuit, values, among)


def goes(circuit, values, then, among):
    """Whether those of its latches go from one time to the next, and the constraints are true then."""
    return keeps(circuit, then) and follows(circuit, values, then, among)


def broken(pair, model, witness):
    """The conditions that some values break: each `any` says that what is given is so, and what is wanted not."""
    shared = pair.inputs | pair.latches
    ours, own = list(pair.latches.values()), [lit for lit, _, _ in witness.latches]
    times = itertools.product(valuations(model), valuations(witness))
    both = [(m, w) for m, w in times if all(value_of(m, b) == value_of(w, a) for a, b in shared.items())]
    kept = [(m, w) for m, w in both if keeps(model, m) and keeps(witness, w)]
    alone = [w for w in valuations(witness) if keeps(witness, w)]
    bad, own_bad = (lambda m: value_of(m, model.bad[0])), (lambda w: value_of(w, witness.bad[0]))
    moves = [(m, w, m1, w1) for (m, w), (m1, w1) in itertools.product(kept, both) if goes(model, m, m1, ours)]
    own_moves = [(w, w1) for w, w1 in itertools.product(alone, alone) if goes(witness, w, w1, own)]
    found = {
        "reset": any(begins(model, m, ours) and not begins(witness, w, pair.latches) for m, w in both),
        "transition": any(not goes(witness, w, w1, pair.latches) for _, w, _, w1 in moves),
        "property": any(not own_bad(w) and bad(m) for m, w in kept),
        "base": any(is_reset(witness, w, own) and own_bad(w) for w in alone),
        "step": any(not own_bad(w) and own_bad(w1) for w, w1 in own_moves),
    }
    return [name for name, is_broken in found.items() if is_broken]


def fails(pair, make):
    """Whether a condition fails by its formula. What breaks it is computed anew, and has to."""
    condition = make(pair)
    if not condition.wanted:
        return False
    condition.formula.expect(condition.given)
    condition.formula.expect_other(condition.wanted)
    found = model_of(condition.formula.clauses)
    return found is not None and bool(conditions.breaking(condition, set(found)))


def judged(model, witness):
    """The conditions that fail, and what is wrong with that, or nothing."""
    pair = conditions.pair_of(aiger.read(model.encode()), aiger.read(witness.encode()))
    failed = [name for name, make in conditions.ASKED.items() if fails(pair, make)]
    wanted = broken(pair, EXHAUSTIVE.Circuit(model), EXHAUSTIVE.Circuit(witness))
    if failed != wanted:
        return failed, f"{failed} fail for {wanted}: {model!r} {witness!r}"
    is_yes = not failed and not conditions.stratified(pair.witness)
    verdict = EXHAUSTIVE.verdict_of(EXHAUSTIVE.Circuit(model), "b0") if is_yes else "safe"
    return failed, None if verdict == "safe" else f"yes, but it is {verdict}: {model!r} {witness!r}"


def drawn_pair(rng):
    """The texts of a random model and of a circuit that may be a witness."""
    model = draw(rng, False)
    witness = rng.choice((changed(rng, model), draw(rng, True)))
    return text_of(model), text_of(witness) + named(rng, model, witness)


def equal_pair(rng):
    """The texts of a random model and of a circuit that may be a witness, in which two latches may be equal."""
    model = draw(rng, False)
    witness = paired(rng, model)
    return text_of(model), text_of(witness) + named(rng, model, witness)


def function_pair(rng):
    """The texts of a random model and of a circuit that may be a witness, with a function as the reset of a latch."""
    while True:
        model = draw(rng, False)
        witness = rng.choice((extended(rng, model), draw(rng, True)))
        texts = text_of(model), text_of(witness) + named(rng, model, witness)
        if is_odd(texts[1]):
            return texts


def failing_of(pair):
    """The conditions that fail of a pair, by their formulas."""
    failed = ["stratified"] if conditions.stratified(pair.witness) else []
    return failed + [name for name, make in conditions.ASKED.items() if fails(pair, make)]


def failing(*texts):
    """The conditions that fail of a model and a witness."""
    return failing_of(conditions.pair_of(*(aiger.read(text.encode()) for text in texts)))


def pair_that_fails(rng, wanted, has_functions):
    """The texts of a random pair of which just these conditions fail, with functions as resets, or none."""
    for _ in range(TRIES):
        texts = function_pair(rng) if has_functions else drawn_pair(rng)
        if failing(*texts) == wanted and is_odd(texts[1]) == has_functions:
            return texts
    raise LookupError(f"none of {TRIES} random pairs fails just {wanted}")


def is_odd(text):
    """Whether a latch of the circuit has another reset than 0, 1 and itself."""
    content = text if isinstance(text, bytes) else text.encode()
    return any(it.reset not in (0, 1, it.lit) for it in aiger.read(content).latches)


def random_pairs():
    """The name of each random pair, and what is wrong with it, or nothing."""
    found = pairs_by(drawn_pair, "random pair", ("none", *conditions.ASKED))
    return found + pairs_by(equal_pair, "random pair with equal latches", ("none", "step"))


def pairs_by(drawing, name, wanted):
    """The names of random pairs that are drawn so, and what is wrong. These conditions fail, or none, often enough."""
    rng, found, count = random.Random(SEED), [], Counter()
    for number in range(COUNT):
        failed, fault = judged(*drawing(rng))
        count.update(failed or ["none"])
        found.append((f"{name} {number}", fault))
    rare = [it for it in wanted if count[it] < LEAST]
    return [*found, (f"{name}s", f"too few with {rare[0]}: {count}" if rare else None)]
