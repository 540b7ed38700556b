"""Cases of tools/gate, in a small repository: the table of what crates cost, and the longest chain of them. And what
bench/plain_rust writes."""

import shutil

from starting import Repository
from trial import TOP, call, case, expect, make

# In seconds: other has no proof, and aigmc stands on extra and base.
LOG = """== base
spent base proof 60.0
spent base edits 120.0
spent extra proof 30.0
spent aigmc proof 90.0
spent aigmc run 600.0
spent aigcheck proof 150.0
spent all 1200.0
"""

TABLE = """| Crate | proof | tests | edits | run | all |
|---|---:|---:|---:|---:|---:|
| `aigmc` | 1.5 |  |  | 10.0 | 11.5 |
| `base` | 1.0 |  | 2.0 |  | 3.0 |
| `aigcheck` | 2.5 |  |  |  | 2.5 |
| `extra` | 0.5 |  |  |  | 0.5 |
| **All crates** | 5.5 | 0.0 | 2.0 | 10.0 | 17.5 |
| **`.ci/run` as a whole** | | | | | 20.0 |
"""

# base and aigcheck are 1 + 2.5 minutes; base, extra and aigmc 1 + 0.5 + 1.5.
CHAIN = """  1.0    1.0  base
  2.5    3.5  aigcheck
3.5 of 5.5 processor minutes, 2 crates of 5
no proof in the log: other
"""


def gate(scratch, *words):
    """What tools/gate does with these words, in a small repository."""
    top = Repository(scratch).top
    (top / "tools").mkdir()
    shutil.copy(TOP / "tools" / "gate", top / "tools")
    done = call(top / "tools" / "gate", *words, cwd=scratch)
    return done.status, done.out.decode(), done.told.decode()


@case("gate: the table")
def table(scratch):
    expect(gate(scratch, make(scratch / "log", LOG)), (0, TABLE, ""), "what it prints")


@case("gate: the longest chain")
def chain(scratch):
    expect(gate(scratch, "--chain", make(scratch / "log", LOG)), (0, CHAIN, ""), "what it prints")


@case("gate: a longer chain")
def longer(scratch):
    # aigmc takes 150 seconds here too, so that its chain has 1 + 0.5 + 2.5 minutes.
    _, printed, _ = gate(scratch, "--chain", make(scratch / "log", LOG.replace("proof 90.0", "proof 150.0")))
    expect(printed.splitlines()[:3], ["  1.0    1.0  base", "  0.5    1.5  extra", "  2.5    4.0  aigmc"], "the chain")


@case("gate: a log without proofs")
def without(scratch):
    log = make(scratch / "log", "spent base edits 1.0\n")
    told = "tools/gate: the log has no proof of a crate of crates.txt\n"
    expect(gate(scratch, "--chain", log), (3, "", told), "what it does")


@case("gate: a log without any time")
def timeless(scratch):
    told = f"tools/gate: {make(scratch / 'log', 'rt: ok')} has no line `spent CRATE TASK SECONDS`\n"
    expect(gate(scratch, scratch / "log"), (3, "", told), "what it does")


@case("plain_rust: the program is among what is written")
def plain(scratch):
    done = call(TOP / "bench" / "plain_rust", scratch / "plain", cwd=scratch)
    expect((done.status, b"main" in done.told), (0, False), "its status, and whether it says that main is left out")
    expect((scratch / "plain" / "main" / "src" / "main.rs").is_file(), True, "whether main is there")
