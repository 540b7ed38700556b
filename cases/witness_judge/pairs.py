"""Small pairs of circuits, and what has to be said of them by the conditions on paper; each says how."""

from collections import namedtuple

# A pair: its name, the model, the witness, what is wanted as the last line (a yes without the solver), and lines that
# have to stand before it.
Pair = namedtuple("Pair", "name model witness wanted lines", defaults=[()])

# One latch stays 0, and is bad.
STAYS = "aag 1 0 1 0 0 1\n2 2\n2\n"

# The second latch stays 0, and the first takes its value; the first is bad. Without the second it is not inductive.
FOLLOWS = "aag 2 0 2 0 0 1\n2 4\n4 4\n2\n"

# The same with the bad literal `one of them is 1`, which is inductive.
STRENGTHENED = "aag 3 0 2 0 1 1\n2 4\n4 4\n7\n6 5 3\n"

# The first latch begins with any value and keeps it, and the second stays 0 and is bad.
FREE = "aag 2 0 2 0 0 1\n2 2 2\n4 4\n4\n"

# The latch is set where the input is, the constraint is that it is not, and the latch is bad.
DENIED = "aag 3 1 1 0 1 1 1\n2\n4 7\n4\n3\n6 5 3\n"

# The same without the constraint.
OPEN = "aag 3 1 1 0 1 1\n2\n4 7\n4\n6 5 3\n"

# The same of the second of two inputs.
SECOND = "aag 4 2 1 0 1 1 1\n2\n4\n6 9\n6\n5\n8 7 5\n"

# The first latch toggles, and the second stays 0 and is bad.
TOGGLES = "aag 2 0 2 0 0 1\n2 3\n4 4\n4\n"

# The first latch is 1 from the second time on, and the second stays 0 and is bad.
RISES = "aag 2 0 2 0 0 1\n2 1\n4 4\n4\n"

# The first latch begins with any value and keeps it, and the second stays 0 and is bad; nothing reads the input.
KEPT = "aag 3 1 2 0 0 1\n2\n4 4 4\n6 6\n6\n"

# The same with four further latches that keep their values, and begin as the first latch's denial, as the input, as
# the latch before, and as the conjunction of the input and the first latch. Bad is the second latch, or that one of
# them does not stand to the others as at first.
FUNCTIONS = (
    "aag 20 1 6 0 13 1\n2\n4 4 4\n6 6\n8 8 5\n10 10 2\n12 12 10\n14 14 16\n41\n16 4 2\n18 8 4\n20 9 5\n"
    "22 12 11\n24 13 10\n26 14 5\n28 14 11\n30 19 7\n32 30 21\n34 32 23\n36 34 25\n38 36 27\n40 38 29\n"
)

# The same in binary: each gate as its differences.
FUNCTIONS_IN_BINARY = b"aig 20 1 6 0 13 1\n4 4\n6\n8 5\n10 2\n12 10\n14 16\n41\n" + bytes(
    (12, 2, 10, 4, 11, 4, 10, 1, 11, 3, 12, 9, 14, 3, 11, 12, 2, 9, 2, 9, 2, 9, 2, 9, 2, 9)
)

# Both latches stay 0, and the second is bad.
ZEROS = "aag 2 0 2 0 0 1\n2 2\n4 4\n4\n"

# Both latches begin with 0 and toggle; bad is that they differ.
TOGETHER = "aag 5 0 2 0 3 1\n2 3\n4 5\n11\n6 5 2\n8 4 3\n10 9 7\n"

# The second begins with 1, and bad is that both are the same.
OPPOSED = "aag 5 0 2 0 3 1\n2 3\n4 5 1\n11\n6 4 2\n8 5 3\n10 9 7\n"

PAIRS = (
    # A circuit whose property is inductive is its own witness.
    Pair("itself", STAYS, STAYS, "yes"),
    Pair("strengthened", FOLLOWS, STRENGTHENED, "yes"),
    # The gate 6 reads 5 and 3: the differences are 1 and 2.
    Pair("binary", FOLLOWS, b"aig 3 0 2 0 1 1\n4\n4\n7\n\x01\x02", "yes"),
    # An output is a bad literal where the file has nothing else.
    Pair("output", "aag 1 0 1 1 0\n2 2\n2\n", STAYS, "yes"),
    # What is equal at one time, or opposed, is so at the next.
    Pair("equal latches", TOGETHER, TOGETHER, "yes"),
    Pair("opposed latches", OPPOSED, OPPOSED, "yes"),
    # Where the second latch is always 1 next, from 1 and 1 the first goes to 0; from 0 and 0 both go to 1.
    Pair(
        "equal for one step",
        TOGETHER.replace("4 5\n", "4 1\n"),
        TOGETHER.replace("4 5\n", "4 1\n"),
        "no: step",
        (
            "step: fails: not that the bad literal of the witness then is false",
            "  witness: l0=1 l1=1",
            "  witness then: l0=0 l1=1",
        ),
    ),
    # Where the second latch stays, both are the same next.
    Pair("opposed at first", *[OPPOSED.replace("4 5 1\n", "4 4 1\n")] * 2, "no: step"),
    # From 0 and 1 the bad latch goes to 1, and no other state is broken.
    Pair(
        "not inductive",
        FOLLOWS,
        FOLLOWS,
        "no: step",
        (
            "step: fails: not that the bad literal of the witness then is false",
            "  witness: l0=0 l1=1",
            "  witness then: l0=1 l1=1",
        ),
    ),
    # The model's first latch may begin with 1, and the witness's not.
    Pair(
        "reset",
        FREE,
        FREE.replace("2 2 2\n", "2 2 0\n"),
        "no: reset",
        ("reset: fails: not that l0 of the witness has its reset", "  model: l0=1 l1=0", "  witness: l0=1 l1=0"),
    ),
    # The first latch stays in the model and toggles in the witness; nothing else reads it.
    Pair(
        "transition",
        FREE,
        FREE.replace("2 2 2\n", "2 3 2\n"),
        "no: transition",
        ("transition: fails: not that l0 of the witness goes to its next value",),
    ),
    # The witness's bad literal is false for ever, and says nothing of the model's, the second latch.
    Pair(
        "property",
        FREE,
        FREE.replace("4 4\n4\n", "4 4\n0\n"),
        "no: property",
        ("property: fails: not that the bad literal of the model is false",),
    ),
    # Bad is `one of them is 1`, and the first may begin with 1. Both stay, so that the step holds.
    Pair(
        "base",
        FREE,
        "aag 3 0 2 0 1 1\n2 2 2\n4 4\n7\n6 5 3\n",
        "no: base",
        ("base: fails: not that the bad literal of the witness is false", "  witness: l0=1 l1=0"),
    ),
    # A further latch whose reset is its own denial: no state has all resets, so that the base holds of anything. The
    # bad literal is true for ever, so that the property follows from nothing.
    Pair(
        "own denial",
        STAYS,
        "aag 2 0 2 0 0 1\n2 2\n4 4 5\n1\n",
        "no: stratified",
        ("stratified: fails: the reset of l1 of the witness depends on itself", "base: holds", "step: holds"),
    ),
    # Two further latches whose resets are each other.
    Pair(
        "resets in a circle",
        STAYS,
        "aag 3 0 3 0 0 1\n2 2\n4 4 6\n6 6 4\n2\n",
        "no: stratified",
        ("stratified: fails: the reset of l1 and l2 of the witness depends on itself",),
    ),
    # The same through a gate, of one latch.
    Pair("reset by a gate that reads it", STAYS, "aag 3 0 2 0 1 1\n2 2\n4 4 6\n2\n6 4 2\n", "no: stratified"),
    # A further latch begins as the first does, at 0, and stays; bad is `one of them is 1`.
    Pair("reset by another latch", STAYS, "aag 3 0 2 0 1 1\n2 2\n4 4 2\n7\n6 5 3\n", "yes"),
    Pair("reset functions", KEPT, FUNCTIONS, "yes"),
    Pair("reset functions in binary", KEPT, FUNCTIONS_IN_BINARY, "yes"),
    # The third latch begins as the first, and is to be its denial.
    Pair("another reset function", KEPT, FUNCTIONS.replace("8 8 5\n", "8 8 4\n"), "no: base"),
    # The first latch begins as the second, which the model has at 0 too.
    Pair("reset of a shared latch", ZEROS, ZEROS.replace("2 2\n", "2 2 4\n"), "yes"),
    Pair("another reset of a shared latch", ZEROS, ZEROS.replace("2 2\n", "2 2 5\n"), "no: reset"),
    # It begins as a further latch, of which the condition says nothing.
    Pair("reset of a shared latch by a further one", ZEROS, "aag 3 0 3 0 0 1\n2 2 6\n4 4\n6 6\n4\n", "no: reset"),
    # A further latch with any value at first counts nothing.
    Pair("further latch", STAYS, "aag 2 0 2 0 0 1\n2 2\n4 5 4\n2\n", "yes"),
    # The constraint holds the input at 0, so that the latch stays 0.
    Pair("constraint", DENIED, DENIED, "yes"),
    # Without it the witness goes from 0 to 1.
    Pair("constraint left out", DENIED, OPEN, "no: step", ("  witness then: i0=0 l0=1",)),
    # The model's input may be 1, at first and later; the witness holds it at 0. The model is violated.
    Pair(
        "constraint added",
        OPEN,
        DENIED,
        "no: reset, transition",
        (
            "reset: fails: not that c0 of the witness is true",
            "transition: fails: not that c0 of the witness then is true",
        ),
    ),
    # At first the first latch is 0, as the added constraint wants, and behind that it is 1.
    Pair("constraint added that holds at first", RISES, "aag 2 0 2 0 0 1 1\n2 1\n4 4\n4\n3\n", "no: transition"),
    # The witness has the second latch alone.
    Pair("latch by name", TOGGLES, "aag 1 0 1 0 0 1\n2 2\n2\nl0 = 4\n", "yes"),
    # By position it would be the first, which toggles; and that this is 0 says nothing of the second.
    Pair("latch by position", TOGGLES, STAYS, "no: transition, property"),
    # Other names than `= LITERAL` name nothing.
    Pair("latch by another name", TOGGLES, STAYS + "l0 4\n", "no: transition, property"),
    # The witness has the second input alone, which the model's constraint holds at 0.
    Pair("input by name", SECOND, DENIED + "i0 = 4\nl0 = 6\n", "yes"),
    # By position it would be the first, which the model lets be 1. The constraints keep both at 0, so that the latch
    # goes to the same value.
    Pair("input by position", SECOND, DENIED, "no: reset, transition", ("property: holds", "step: holds")),
    # Nothing is shared but the latch: that the witness's own input is 0 does not follow.
    Pair("input of its own", SECOND, DENIED + "l0 = 6\n", "no: reset, transition"),
)

# A pair that is refused: its name, the model, the witness, and the last words of the line on standard error.
REFUSED = (
    ("no circuit", "aag 1\n", STAYS, "it does not begin with the header of an AIGER file"),
    ("cut", STAYS, STAYS[:-1], "it ends where line 3 has to stand"),
    ("cycle of gates", STAYS, "aag 3 0 1 0 2 1\n2 2\n2\n4 6 6\n6 4 4\n", " reads itself"),
    ("undefined", STAYS, "aag 2 0 1 0 0 1\n2 4\n2\n", "4 is used and not defined"),
    ("defined twice", STAYS, "aag 2 0 2 0 0 1\n2 2\n2 2\n2\n", "a variable is defined twice"),
    ("two bad literals", "aag 1 0 1 0 0 2\n2 2\n2\n3\n", STAYS, "the model has 2 bad literals, and not one"),
    ("no bad literal", STAYS, "aag 1 0 1 0 0\n2 2\n", "the witness has 0 bad literals, and not one"),
    ("output, constraint", "aag 1 0 1 1 0 0 1\n2 2\n2\n3\n", STAYS, "the model has 0 bad literals, and not one"),
    ("reset of the model", "aag 2 0 2 0 0 1\n2 2 4\n4 4\n2\n", STAYS, "is none of 0, 1 and itself"),
    ("name of a gate", FOLLOWS, STAYS + "l0 = 6\n", "l0 of the witness names 6, which is no latch of the model"),
    ("name of a denial", FOLLOWS, STAYS + "l0 = 3\n", "l0 of the witness names 3, which is no latch of the model"),
    ("name of an input", DENIED, STAYS + "l0 = 2\n", "l0 of the witness names 2, which is no latch of the model"),
    ("one name twice", FOLLOWS, STRENGTHENED + "l0 = 2\nl1 = 2\n", "name the same literal of the model"),
    ("name without a literal", STAYS, STAYS + "l0 = x\n", "l0 of the witness begins with = and has no literal"),
)

# A solver that is none: its name, its lines, and the last words of the line on standard error.
SOLVERS_THAT_FAIL = (
    ("no solver", None, "no SAT solver is installed: cadical, kissat, minisat, picosat"),
    ("a solver that ends with 1", "exit 1", "ended with status 1 and no answer: ''"),
    ("a solver that says nothing", "exit 20", "ended with status 20 and no answer: ''"),
    ("a solver that contradicts itself", "echo s SATISFIABLE; exit 20", "and no answer: 's SATISFIABLE'"),
    ("a model that breaks nothing", "echo s SATISFIABLE; echo v 1 0; exit 10", "does not break the condition"),
)
