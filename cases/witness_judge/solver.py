"""A SAT solver in the words of cadical (-q FILE) and of minisat (-verb=0 FILE ANSWER): it takes units first, and then
tries both values of a variable."""

import sys


def reduced(clauses, lits):
    """The clauses that are left where these literals are true."""
    return [[it for it in clause if -it not in lits] for clause in clauses if lits.isdisjoint(clause)]


def forced(clauses):
    """The clauses that are left where all units are true, and these: among them both of a variable where two clash."""
    found = set()
    while units := {clause[0] for clause in clauses if len(clause) == 1}:
        found |= units
        clauses = reduced(clauses, units)
    return clauses, found


def model_of(clauses):
    """Literals that make clauses true, or nothing (None)."""
    left, units = forced(clauses)
    if not all(left) or any(-lit in units for lit in units):
        return None
    lit = min(left, key=len)[0] if left else None
    for choice in (lit, -lit) if left else ():
        found = model_of(reduced(left, {choice}))
        if found is not None:
            return [*units, choice, *found]
    return None if left else [*units]


def main(asked, answer=None):
    """Answers the formula of a file. Gives the status."""
    with open(asked, encoding="utf-8") as file:
        rows = [line.split()[:-1] for line in file if line[:1] not in ("p", "c")]
    found = model_of([[int(word) for word in row] for row in rows])
    model = " ".join(map(str, [*(found or []), 0]))
    if answer:
        with open(answer, "w", encoding="utf-8") as file:
            file.write("UNSAT\n" if found is None else f"SAT\n{model}\n")
    else:
        print("s UNSATISFIABLE" if found is None else f"s SATISFIABLE\nv {model}")
    return 20 if found is None else 10


if __name__ == "__main__":
    sys.exit(main(*sys.argv[2:]))
