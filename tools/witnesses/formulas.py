"""Formulas in conjunctive normal form over circuits at some times, and SAT solvers that answer them."""

import pathlib
import shutil
import subprocess
import tempfile

import calls

# The solvers that are looked for, in this order, each with its words before the file.
SOLVERS = {"cadical": ["-q"], "kissat": ["-q"], "minisat": ["-verb=0"], "picosat": []}
SATISFIABLE, UNSATISFIABLE = 10, 20

# The literal that is true in each formula.
TRUE = 1


class NoAnswer(Exception):
    """Why a solver has not answered."""


class Formula:
    """Clauses, and how many variables they have. The first variable is true."""

    def __init__(self):
        self.most, self.clauses, self.conjunctions = 1, [(TRUE,)], {}

    def new(self):
        """A new variable."""
        self.most += 1
        return self.most

    def conjunction(self, left, right):
        """A literal that is true exactly where both are. Of the same two it is the same one (structural hashing)."""
        if left == -right or -TRUE in (left, right):
            return -TRUE
        if left in (right, TRUE):
            return right
        if right == TRUE:
            return left
        both = (min(left, right), max(left, right))
        if both not in self.conjunctions:
            lit = self.conjunctions[both] = self.new()
            self.clauses += [(-lit, left), (-lit, right), (lit, -left, -right)]
        return self.conjunctions[both]

    def text(self):
        """The formula in DIMACS."""
        lines = (" ".join(map(str, (*clause, 0))) for clause in self.clauses)
        return "\n".join([f"p cnf {self.most} {len(self.clauses)}", *lines, ""])

    def expect(self, facts):
        """Says that in each of these facts both literals are equal."""
        for _, left, right in facts:
            self.clauses += [(-left, right), (left, -right)]

    def expect_other(self, facts):
        """Says that in one of these facts the literals are not equal."""
        others = []
        for _, left, right in facts:
            others.append(self.new())
            self.clauses += [(-others[-1], left, right), (-others[-1], -left, -right)]
        self.clauses.append(tuple(others))


class Frame:
    """A circuit at one time, with a literal of the formula for each of its variables. `shared` has those of the inputs
    and latches that another circuit has too."""

    def __init__(self, formula, circuit, name, shared):
        self.circuit, self.name = circuit, name
        own = [*circuit.inputs, *(it.lit for it in circuit.latches)]
        self.variables = {0: -TRUE} | {lit: shared.get(lit) or formula.new() for lit in own}
        for it in circuit.gates:
            self.variables[it.lit] = formula.conjunction(self.literal(it.left), self.literal(it.right))

    def literal(self, lit):
        """The formula's literal of a literal of the circuit."""
        variable = self.variables[lit & ~1]
        return -variable if lit % 2 else variable


def solver():
    """The path of a SAT solver that is installed, and its words."""
    found = [(path, words) for name, words in SOLVERS.items() if (path := shutil.which(name))]
    if not found:
        raise NoAnswer(f"no SAT solver is installed: {', '.join(SOLVERS)}")
    return found[0]


def solved(formula, path, words):
    """The literals that a solver makes true, or nothing (None) where it says that the formula has no model."""
    with tempfile.TemporaryDirectory(prefix="witness-judge-") as folder:
        asked, answer = pathlib.Path(folder) / "formula.cnf", pathlib.Path(folder) / "answer"
        asked.write_text(formula.text())
        is_minisat = pathlib.Path(path).name == "minisat"
        call = [path, *words, str(asked), *([str(answer)] if is_minisat else [])]
        how = {"stdin": subprocess.DEVNULL, "stdout": subprocess.PIPE, "preexec_fn": calls.dying()}
        done = subprocess.run(call, check=False, **how)
        printed = done.stdout.decode(errors="replace")
        lines = minisat_lines(answer) if is_minisat else printed.splitlines()
    if done.returncode == UNSATISFIABLE and "s UNSATISFIABLE" in lines:
        return None
    if done.returncode == SATISFIABLE and "s SATISFIABLE" in lines:
        return {int(word) for line in lines if line.startswith("v ") for word in line[2:].split()}
    raise NoAnswer(f"{path} ended with status {done.returncode} and no answer: {printed[-200:].strip()!r}")


def minisat_lines(answer):
    """The answer that minisat wrote into a file, as other solvers print it."""
    text = answer.read_text() if answer.exists() else ""
    said, _, model = text.partition("\n")
    return {"SAT": ["s SATISFIABLE", f"v {model.strip()}"], "UNSAT": ["s UNSATISFIABLE"]}.get(said.strip(), [])
