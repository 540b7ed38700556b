"""Witness circuits of properties that hold by induction over several times, made by unrolling a circuit."""

import functools
import itertools

from solver import model_of

from witnesses import aiger, conditions
from witnesses.formulas import Formula, Frame

# How many times an induction may be over.
MOST = 5


def follows(formula, given, wanted):
    """Whether what is wanted follows from what is given, over circuits at some times."""
    formula.expect(given)
    formula.expect_other(wanted)
    return model_of(formula.clauses) is None


def unrolled(circuit, count):
    """A formula, the circuit at so many times, and that these keep the constraints and each steps to the next."""
    formula, own = Formula(), [it.lit for it in circuit.latches]
    frames = [Frame(formula, circuit, f"time {at}", {}) for at in range(count)]
    moves = [fact for now, then in itertools.pairwise(frames) for fact in conditions.steps(now, then, own)]
    return formula, frames, moves + [fact for it in frames for fact in conditions.constraints(it)]


def holds_at_last(circuit, bad, count):
    """Whether the property holds at the last of so many first times. Constraints behind it count nothing."""
    formula, frames, given = unrolled(circuit, count)
    given += conditions.resets(frames[0], [it.lit for it in circuit.latches])
    return follows(formula, given, conditions.is_safe(frames[-1], bad))


def holds_at_first(circuit, bad, depth):
    """Whether the property holds at so many first times."""
    return all(holds_at_last(circuit, bad, count) for count in range(1, depth + 1))


def goes_on(circuit, bad, depth):
    """Whether the property holds behind so many times at which it does."""
    formula, frames, given = unrolled(circuit, depth + 1)
    given += [fact for it in frames[:-1] for fact in conditions.is_safe(it, bad)]
    return follows(formula, given, conditions.is_safe(frames[-1], bad))


def depth_of(circuit, bad):
    """Over how many times the induction is by which the property holds: the fewest, or none (0)."""
    depths = (depth for depth in range(1, MOST + 1) if goes_on(circuit, bad, depth))
    depth = next(depths, 0)
    return depth if depth and holds_at_first(circuit, bad, depth) else 0


class Growing:
    """A circuit that gets further latches and gates."""

    def __init__(self, circuit):
        self.circuit, self.most = circuit, circuit.most
        self.latches, self.gates = list(circuit.latches), list(circuit.gates)

    def variable(self):
        """The literal of a new variable."""
        self.most += 1
        return 2 * self.most

    def latch(self, following):
        """A further latch, which is reset to 0."""
        self.latches.append(aiger.Latch(self.variable(), following, 0))
        return self.latches[-1].lit

    def both(self, one, other):
        """That two literals are true."""
        self.gates.append(aiger.Gate(self.variable(), one, other))
        return self.gates[-1].lit

    def implies(self, one, other):
        """That a literal is true where another one is."""
        return self.both(one, other ^ 1) ^ 1

    def are_same(self, one, other):
        """That two literals are equal."""
        return self.both(self.implies(one, other), self.implies(other, one))

    def before(self, lits):
        """The literals of the circuit at the time before: its inputs and latches are kept by further latches."""
        kept = [*self.circuit.inputs, *(it.lit for it in self.circuit.latches)]
        found = {0: 0} | {lit: self.latch(lits[lit]) for lit in kept}
        for it in self.circuit.gates:
            found[it.lit] = self.both(at(found, it.left), at(found, it.right))
        return found

    def text(self, bad):
        """The circuit in ASCII, with one bad literal."""
        inputs, constraints = self.circuit.inputs, self.circuit.constraints
        head = f"aag {self.most} {len(inputs)} {len(self.latches)} 0 {len(self.gates)} 1 {len(constraints)}"
        rows = [[lit] for lit in inputs] + self.latches + [[bad]] + [[lit] for lit in constraints] + self.gates
        return "\n".join([head, *(" ".join(map(str, row)) for row in rows), ""])


def at(lits, lit):
    """A literal of the circuit, at the time of these literals."""
    return lits[lit & ~1] ^ lit & 1


def expected_of_time(grown, now, then, bad):
    """What has to hold of a time that is known, with the time after."""
    circuit = grown.circuit
    moves = [grown.are_same(at(now, it.next), then[it.lit]) for it in circuit.latches]
    return [at(now, bad) ^ 1, *(at(now, lit) for lit in circuit.constraints), *moves]


def witness_of(circuit, bad, depth):
    """A witness circuit, in ASCII, that the property holds by induction over so many times.

    Further latches keep as many times as are known, of those before this one. Its property is that the circuit's holds now
    and at these, that they keep the constraints and each steps to the next, and that the first of fewer is initial.
    """
    grown = Growing(circuit)
    times, known = [{lit: lit for lit in range(0, 2 * circuit.most + 2, 2)}], [1]
    for _ in range(1, depth):
        times.append(grown.before(times[-1]))
        known.append(grown.latch(known[-1]))
    wanted = [at(times[0], bad) ^ 1]
    for place in range(1, depth):
        wanted.append(grown.implies(known[place], known[place - 1]))
        there = expected_of_time(grown, times[place], times[place - 1], bad)
        wanted += [grown.implies(known[place], lit) for lit in there]
        first = grown.both(known[place - 1], known[place] ^ 1)
        resets = [times[place - 1][it.lit] ^ it.reset ^ 1 for it in circuit.latches if it.reset in (0, 1)]
        wanted += [grown.implies(first, lit) for lit in resets]
    return grown.text(functools.reduce(grown.both, wanted) ^ 1)


def chain(rng, stages):
    """A circuit, in ASCII, whose property holds by induction over so many times: nothing goes through its stages, some of
    which keep the negation. The first one takes 0, or an input that a constraint denies."""
    has_input, odd = rng.randrange(2), [rng.randrange(2) for _ in range(stages)]
    lits = [2 * (has_input + stage) + 2 for stage in range(stages)]
    before = [2 * has_input, *(lit ^ is_odd for lit, is_odd in zip(lits, odd))]
    rows = [[2]] * has_input + [[lit, before[k] ^ odd[k], odd[k]] for k, lit in enumerate(lits)]
    rows += [[before[-1]]] + [[3]] * has_input
    head = f"aag {has_input + stages} {has_input} {stages} 0 0 1 {has_input}"
    return "\n".join([head, *(" ".join(map(str, row)) for row in rows), ""])
