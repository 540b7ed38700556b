"""The six conditions under which a circuit is a witness that the property of another one, the model, holds.

K are the latches that both have. Of a circuit R says that latches have their resets, F that they have their next values
at the time after, C that its constraints are true, and P that its bad literal is false: R(K) and F(K) of the latches of
K alone. A ' marks those of the witness, and a 1 the time after.

    stratified   no reset of the witness depends on itself
    reset        R(K) and C follow to R'(K) and C'
    transition   F(K), C, C1 and C' follow to F'(K) and C1'
    property     C, C' and P' follow to P
    base         R' and C' follow to P'
    step         P', F', C' and C1' follow to P1'

Then each run of the model goes with one of the witness that has the same shared inputs and latches, and on that P'
holds, and so P.
"""

import collections
import graphlib
import re

from witnesses.aiger import values_of
from witnesses.formulas import TRUE, Formula, Frame, NoAnswer, solved

# The model and the witness, each with its bad literal, and what they share: the model's literals by the witness's.
Pair = collections.namedtuple("Pair", "model witness bad own_bad inputs latches")

# What has to follow from what in a formula over circuits at some times. Each fact is words and two equal literals.
Condition = collections.namedtuple("Condition", "formula frames given wanted")

SHARED = re.compile(rb"= *(0|[1-9][0-9]{0,17})")


class NoPair(Exception):
    """Why two circuits are no model and witness."""


def bad_of(circuit, name):
    """The only bad literal of a circuit, or the only output of one from before AIGER 1.9."""
    is_old = not (circuit.bad or circuit.constraints or circuit.others)
    found = circuit.outputs if is_old else circuit.bad
    if len(found) != 1:
        raise NoPair(f"the {name} has {len(found)} bad literals, and not one")
    return found[0]


def named(witness, kind):
    """The literals of the model that the witness's inputs or latches name, by their positions."""
    names = {at: name for (other, at), name in witness.names.items() if other == kind and name.startswith(b"=")}
    wrong = [f"{kind}{at}" for at, name in names.items() if not SHARED.fullmatch(name)]
    if wrong:
        raise NoPair(f"the name of {wrong[0]} of the witness begins with = and has no literal")
    return {at: int(SHARED.fullmatch(name)[1]) for at, name in names.items()}


def by_name(kind, theirs, ours, names):
    """What is shared where the symbol table names it."""
    wrong = [at for at, lit in names.items() if lit not in theirs]
    if wrong:
        what = "input" if kind == "i" else "latch"
        raise NoPair(f"{kind}{wrong[0]} of the witness names {names[wrong[0]]}, which is no {what} of the model")
    if len(set(names.values())) < len(names):
        raise NoPair(f"two of {kind} of the witness name the same literal of the model")
    return {ours[at]: lit for at, lit in names.items()}


def pair_of(model, witness):
    """The model and the witness. What they share stands in the witness's symbol table, or else goes by position."""
    odd = [it.lit for it in model.latches if it.reset not in (0, 1, it.lit)]
    if odd:
        raise NoPair(f"the reset of the latch {odd[0]} of the model is none of 0, 1 and itself")
    lists = {"i": (model.inputs, witness.inputs)}
    lists["l"] = [it.lit for it in model.latches], [it.lit for it in witness.latches]
    names = {kind: named(witness, kind) for kind in lists}
    if names["i"] or names["l"]:
        shared = [by_name(kind, *lists[kind], names[kind]) for kind in lists]
    else:
        shared = [dict(zip(ours, theirs)) for theirs, ours in lists.values()]
    return Pair(model, witness, bad_of(model, "model"), bad_of(witness, "witness"), *shared)


def joined(formula, pair, then=""):
    """The model and the witness at one time, with the same values of what they share."""
    ours = Frame(formula, pair.model, f"model{then}", {})
    shared = {lit: ours.variables[theirs] for lit, theirs in (pair.inputs | pair.latches).items()}
    return ours, Frame(formula, pair.witness, f"witness{then}", shared)


def latches_of(frame, among):
    """The latches of a circuit whose literals are among these, each with what it is called."""
    latches = enumerate(frame.circuit.latches)
    return [(f"l{at} of the {frame.name}", latch) for at, latch in latches if latch.lit in among]


def resets(frame, among):
    """That latches have their resets."""
    latches = latches_of(frame, among)
    return [(f"{name} has its reset", frame.literal(it.lit), frame.literal(it.reset)) for name, it in latches]


def steps(frame, then, among):
    """That latches have their next values at the time after."""
    latches = latches_of(frame, among)
    return [(f"{name} goes to its next value", then.literal(it.lit), frame.literal(it.next)) for name, it in latches]


def constraints(frame):
    """That the constraints are true."""
    lits = enumerate(frame.circuit.constraints)
    return [(f"c{at} of the {frame.name} is true", frame.literal(lit), TRUE) for at, lit in lits]


def is_safe(frame, bad):
    """That the bad literal is false."""
    return [(f"the bad literal of the {frame.name} is false", frame.literal(bad), -TRUE)]


def parts_of(circuit, lit):
    """Literals that are all true exactly where this one is: itself, or of a gate the parts of its two sides."""
    gates, parts, left = {it.lit: it for it in circuit.gates}, {}, [lit]
    while left:
        lit = left.pop()
        if lit in gates:
            left += [gates[lit].right, gates[lit].left]
        else:
            parts[lit] = gates.get(lit ^ 1)
    return parts


def equal(circuit, lit):
    """Pairs of literals of inputs and latches, or of the constant, that are equal wherever this literal is true."""
    gates, parts = {it.lit for it in circuit.gates}, parts_of(circuit, lit)
    denied = {(min(gate.left, gate.right), max(gate.left, gate.right)) for gate in parts.values() if gate}
    pairs = [(lit, 1) for lit, gate in parts.items() if not gate]
    pairs += [(left, right ^ 1) for left, right in sorted(denied) if (left ^ 1, right ^ 1) in denied]
    return [pair for pair in pairs if not {lit & ~1 for lit in pair} & gates]


def merged(formula, circuit, pairs):
    """A literal of the formula for each input and latch, the same one for those that pairs say to be equal."""
    firsts = {}

    def first_of(lit):
        while lit & ~1 in firsts:
            lit = firsts[lit & ~1] ^ lit & 1
        return lit

    for pair in pairs:
        low, high = sorted(map(first_of, pair))
        if low ^ high > 1:
            firsts[high & ~1] = low ^ high & 1
    literals = {0: -TRUE}
    for lit in [*circuit.inputs, *(it.lit for it in circuit.latches)]:
        first = first_of(lit)
        if first & ~1 not in literals:
            literals[first & ~1] = formula.new()
        literals[lit] = -literals[first & ~1] if first % 2 else literals[first & ~1]
    return literals


def reset(pair):
    """The resets and constraints of the model have to give those of the witness."""
    formula = Formula()
    model, witness = joined(formula, pair)
    given = resets(model, pair.latches.values()) + constraints(model)
    return Condition(formula, (model, witness), given, resets(witness, pair.latches) + constraints(witness))


def transition(pair):
    """A step of the model has to be one of the witness."""
    formula = Formula()
    (model, witness), (later, own_later) = joined(formula, pair), joined(formula, pair, " then")
    given = steps(model, later, pair.latches.values()) + constraints(model) + constraints(later) + constraints(witness)
    wanted = steps(witness, own_later, pair.latches) + constraints(own_later)
    return Condition(formula, (model, witness, later, own_later), given, wanted)


def property_follows(pair):
    """The property of the witness has to give that of the model."""
    formula = Formula()
    model, witness = joined(formula, pair)
    given = constraints(model) + constraints(witness) + is_safe(witness, pair.own_bad)
    return Condition(formula, (model, witness), given, is_safe(model, pair.bad))


def base(pair):
    """The witness's property has to hold at first."""
    formula = Formula()
    frame = Frame(formula, pair.witness, "witness", {})
    given = resets(frame, [it.lit for it in pair.witness.latches]) + constraints(frame)
    return Condition(formula, (frame,), given, is_safe(frame, pair.own_bad))


def step(pair):
    """The witness's property has to hold on. Latches that it says to be equal have one variable, so that gates over
    them are the same ones, and the latches at the time after are their next literals."""
    formula, circuit = Formula(), pair.witness
    frame = Frame(formula, circuit, "witness", merged(formula, circuit, equal(circuit, pair.own_bad ^ 1)))
    then = Frame(formula, circuit, "witness then", {it.lit: frame.literal(it.next) for it in circuit.latches})
    moved = steps(frame, then, [it.lit for it in circuit.latches])
    given = is_safe(frame, pair.own_bad) + moved + constraints(frame) + constraints(then)
    return Condition(formula, (frame, then), given, is_safe(then, pair.own_bad))


def stratified(witness):
    """The latches of the witness on a cycle of resets, where there is one. One that is its own reset has any value."""
    latches = {it.lit: [it.reset & ~1] for it in witness.latches if it.reset & ~1 != it.lit or it.reset % 2}
    gates = {it.lit: [it.left & ~1, it.right & ~1] for it in witness.gates}
    try:
        list(graphlib.TopologicalSorter(latches | gates).static_order())
    except graphlib.CycleError as error:
        cycle = set(error.args[1])
        at = [f"l{at}" for at, it in enumerate(witness.latches) if it.lit in cycle]
        return [f"the reset of {' and '.join(at)} of the witness depends on itself"]
    return []


# The conditions that a SAT solver answers.
ASKED = {"reset": reset, "transition": transition, "property": property_follows, "base": base, "step": step}


def breaking(condition, model):
    """What a solver's model breaks, and the inputs and latches of each circuit. The gates are computed anew, and it has
    to break one of what is wanted, and nothing of what is given."""
    values, lines = {TRUE: True}, []
    for frame in condition.frames:
        lits = [*frame.circuit.inputs, *(it.lit for it in frame.circuit.latches)]
        given = {lit: frame.variables[lit] for lit in lits}
        found = values_of(frame.circuit, {lit: (abs(it) in model) == (it > 0) for lit, it in given.items()})
        here = {abs(it): found[lit] == (it > 0) for lit, it in frame.variables.items() if lit}
        if any(values.get(variable, value) != value for variable, value in here.items()):
            raise NoAnswer("the solver's model has two values of a gate")
        values |= here
        names = [f"i{at}" for at in range(len(frame.circuit.inputs))]
        names += [f"l{at}" for at in range(len(frame.circuit.latches))]
        lines.append(" ".join([f"  {frame.name}:", *(f"{name}={found[lit]:d}" for name, lit in zip(names, lits))]))
    differ = lambda left, right: (values[abs(left)] == (left > 0)) != (values[abs(right)] == (right > 0))
    broken = [words for words, left, right in condition.wanted if differ(left, right)]
    if not broken or any(differ(left, right) for _, left, right in condition.given):
        raise NoAnswer("the solver's model does not break the condition")
    return [f"not that {', '.join(broken)}", *lines]


def faults_of(condition, solver):
    """What breaks a condition, or nothing where the solver says that nothing does."""
    if not condition.wanted:
        return []
    condition.formula.expect(condition.given)
    condition.formula.expect_other(condition.wanted)
    model = solved(condition.formula, *solver)
    return [] if model is None else breaking(condition, model)


def judged(pair, solver):
    """Each condition in turn, with what breaks it."""
    yield "stratified", stratified(pair.witness)
    for name, condition in ASKED.items():
        yield name, faults_of(condition(pair), solver)
