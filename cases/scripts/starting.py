"""Cases of bin/started and bin/build, in a small repository of its own. What stands there for `rt` proves nothing,
and makes programs that say which source they were made of."""

import importlib.machinery
import importlib.util
import os
import pathlib
import shutil
import signal
import subprocess
import sys

from trial import TOP, call, case, children, expect, is_there, make, make_script, wait_for

sys.path.insert(0, str(TOP / "share" / "lugyveron"))

import crates

CRATES = "base:\nextra: base\naigcheck: base\naigmc: extra base\nother: base\n"

BUILDER = """echo $$ >> {folder}/builds
cp crates.txt {folder}/asked
[ ! -e {folder}/slow ] || sleep 1
[ ! -e {folder}/endless ] || sleep 60
[ ! -e {folder}/edit ] || echo three > {folder}/top/crates/base/src/lib.rt
[ ! -e {folder}/fail ] || exit 1
for program in aigcheck aigmc; do
    [ -d crates/$program ] || continue
    mkdir -p crates/$program/out
    echo "#!/bin/sh
echo $program of $(cat crates/base/src/lib.rt): \\"\\$@\\"" > crates/$program/out/$program
    chmod +x crates/$program/out/$program
done"""


class Repository:
    """A small repository, and a kit."""

    def __init__(self, folder):
        self.folder, self.top = folder, folder / "top"
        shutil.copytree(TOP / "share", self.top / "share")
        (self.top / "bin").mkdir()
        for name in ("aigmc", "aigcheck", "started", "build"):
            shutil.copy(TOP / "bin" / name, self.top / "bin")
        make(self.top / "HANDLES", "Handles allowed: none.\n")
        make(self.top / "crates.txt", CRATES)
        for line in CRATES.splitlines():
            source = self.top / "crates" / line.partition(":")[0] / "src"
            source.mkdir(parents=True)
            make(source / "lib.rt", "one\n")
        for name in ("kit/bin", "temporary"):
            (folder / name).mkdir(parents=True)
        make(folder / "kit/KIT-ID", "a kit\n")
        make_script(folder / "kit/bin/rt", BUILDER.format(folder=folder))
        self.environment = {"PATH": f"{folder}/kit/bin:{os.environ['PATH']}", "TMPDIR": f"{folder}/temporary"}
        self.environment = os.environ | self.environment

    def source(self, crate="base", name="lib.rt"):
        """A source."""
        return self.top / "crates" / crate / "src" / name

    def says(self, program="aigmc"):
        """What a program says."""
        return call(self.top / "bin" / program, "-x", "a b", cwd=self.folder, env=self.environment).out.decode()

    def builds(self):
        """How many builds there were."""
        made = self.folder / "builds"
        return len(made.read_text().splitlines()) if made.exists() else 0

    def asked(self):
        """The crates.txt of the last build."""
        return (self.folder / "asked").read_text()

    def begun(self):
        """A call of bin/build that is under way."""
        streams = {"stdout": subprocess.PIPE, "stderr": subprocess.PIPE, "env": self.environment}
        return subprocess.Popen([self.top / "bin/build"], cwd=self.folder, **streams)


@case("started: it builds once")
def once(scratch):
    here = Repository(scratch)
    for program in ("aigmc", "aigmc", "aigcheck"):
        expect(here.says(program), f"{program} of one: -x a b\n", "what the program says")
    expect(here.builds(), 1, "how often it builds")
    done = call(here.top / "bin/build", cwd=scratch, env=here.environment)
    expect((done.status, here.builds()), (0, 1), "what bin/build does then")
    done = call(here.top / "bin/build", "--anew", cwd=scratch, env=here.environment)
    expect((done.status, here.builds()), (0, 2), "what bin/build --anew does")


@case("started: a source that is edited, with an old time stamp")
def edited(scratch):
    here = Repository(scratch)
    here.says()
    os.utime(make(here.source(), "two\n"), (1, 1))
    expect((here.says(), here.builds()), ("aigmc of two: -x a b\n", 2), "what the program says, and the builds")


@case("started: sources that are touched, of another crate, deleted, new")
def touched(scratch):
    here = Repository(scratch)
    here.says()
    found = []
    os.utime(here.source())
    make(here.source("base", ".lib.rt.swp"), "an editor's\n")
    found.append((here.says("aigmc"), here.builds())[1])
    make(here.source("other"), "two\n")
    found.append((here.says("aigmc"), here.builds())[1])
    make(here.source("extra", "more.rt"), "more\n")
    found.append((here.says("aigcheck"), here.builds())[1])
    found.append((here.says("aigmc"), here.builds())[1])
    here.source("extra", "more.rt").unlink()
    found.append((here.says("aigmc"), here.builds())[1])
    expect(found, [1, 1, 1, 2, 3], "how many builds there were")


@case("started: another kit")
def another_kit(scratch):
    here = Repository(scratch)
    here.says()
    make(scratch / "kit/KIT-ID", "another kit\n")
    expect((here.says(), here.builds()), ("aigmc of one: -x a b\n", 2), "what the program says, and the builds")
    shutil.copytree(scratch / "kit", scratch / "third")
    make(scratch / "third/KIT-ID", "a third kit\n")
    here.environment["PATH"] = f"{scratch}/third/bin:{here.environment['PATH']}"
    expect((here.says(), here.builds()), ("aigmc of one: -x a b\n", 3), "what the program says, and the builds")


@case("started: a source that is edited while it builds")
def edited_meanwhile(scratch):
    here = Repository(scratch)
    make(scratch / "edit", "")
    expect(here.says(), "aigmc of one: -x a b\n", "what the program says")
    (scratch / "edit").unlink()
    is_newer = here.source().stat().st_mtime > (here.top / "crates/aigmc/out/aigmc").stat().st_mtime
    expect(is_newer, True, "whether the source is newer than the program")
    expect((here.says(), here.builds()), ("aigmc of three: -x a b\n", 2), "what the program says then, and the builds")


@case("started: a program that another put there")
def found_there(scratch):
    here = Repository(scratch)
    here.says()
    program = here.top / "crates/aigmc/out/aigmc"
    make_script(program, "echo another")
    expect((here.says(), here.builds()), ("another\n", 1), "what a newer program says, and the builds")
    make_script(program, "echo a third")
    os.utime(program, (1, 1))
    expect((here.says(), here.builds()), ("aigmc of one: -x a b\n", 2), "what an older one says, and the builds")


@case("started: a copy without sources")
def without_sources(scratch):
    here = Repository(scratch)
    here.says()
    (here.top / "crates.txt").rename(scratch / "crates.txt")
    shutil.rmtree(here.top / "crates/base")
    expect((here.says(), here.builds()), ("aigmc of one: -x a b\n", 1), "what the program says, and the builds")
    (scratch / "crates.txt").rename(here.top / "crates.txt")
    shutil.rmtree(here.top / "crates/aigmc/src")
    expect((here.says(), here.builds()), ("aigmc of one: -x a b\n", 1), "what it says without its own sources")


@case("started: a copy of the repository that is edited")
def copied(scratch):
    here = Repository(scratch)
    here.says()
    shutil.copytree(here.top, scratch / "copy")
    here.top = scratch / "copy"
    make(here.source(), "two\n")
    expect((here.says(), here.builds()), ("aigmc of two: -x a b\n", 2), "what its program says, and the builds")


@case("build: aigcheck alone, and aigmc behind it")
def alone(scratch):
    here, judge = Repository(scratch), "base: \naigcheck: base\n"
    done = call(here.top / "bin/build", "aigcheck", cwd=scratch, env=here.environment)
    is_made = (here.top / "crates/aigmc/out/aigmc").exists()
    expect((done.status, here.asked(), is_made), (0, judge, False), "the status, the crates, whether aigmc is made")
    found = [(here.says("aigcheck"), here.builds())[1], (here.says("aigmc"), here.builds())[1]]
    expect((found, here.asked()), ([1, 2], "base: \nextra: base\naigmc: extra base\n"), "the builds, and the crates")
    make(here.source(), "two\n")
    expect((here.says("aigcheck"), here.asked()), ("aigcheck of two: -x a b\n", judge), "bin/aigcheck")


# Of four crates the last stands on two, and one of these on the first: in one lane they take 2 + 3 + 4 + 1, and in two
# the chain of three, 2 + 3 + 1, since the fourth ends at 4, before 5.
DIAMOND = {"a": [], "b": ["a"], "c": [], "d": ["b", "c"]}
MINUTES = {"a": 2, "b": 3, "c": 4, "d": 1}


@case("build: the longest chain, and how long crates take")
def long_chain(_scratch):
    expect(crates.chains(DIAMOND, MINUTES)["d"], (6, ("a", "b", "d")), "the longest chain")
    found = [crates.span(DIAMOND, MINUTES, lanes) for lanes in (1, 2)]
    expect(found, [10, 6], "how long they take in one lane and in two")
    # The long one goes first: else it would begin at 3 and end at 9.
    apart = {"x": [], "y": [], "z": []}
    expect(crates.span(apart, {"x": 3, "y": 3, "z": 6}, 2), 6, "how long three take in two lanes")


@case("build: what crates cost by a table")
def by_table(_scratch):
    # The whole is 5, and 2 of it is the first's: the others share 3 by their sizes.
    table = "| Crate | proof | all |\n| `a` | 2.0 | 4.1 |\n| `x` |  | 3.0 |\n| **All crates** | 5.0 | 9.0 |\n"
    expect(crates.costs_of(table, {"a": 70, "b": 10, "c": 20}), {"a": 2, "b": 1, "c": 2}, "what they cost")
    expect(crates.costs_of("| `a` | 2.0 | 4.1 |\n", {"a": 70}), {}, "what they cost where there is no sum")


@case("build: how long is left")
def how_long(_scratch):
    def seconds(proved, kept, begun, gone):
        return crates.seconds_left(DIAMOND, MINUTES, (set(proved), set(kept), set(begun)), gone, 1)

    # Nothing is through, so a minute takes 60 seconds. Then the first, of 2, took 100: 8 are left.
    expect([seconds("", "", "", 90), seconds("a", "", "", 100)], [600, 400], "at first, and behind a crate")
    # The third, of 4, took 100, and the first was kept: 4 are left. 3.5 took 70, half of one among them: 6.5 are left.
    expect([seconds("c", "a", "", 100), seconds("a", "", "b", 70)], [100, 130], "with one kept, and with one begun")
    expect(seconds("abcd", "", "", 100), 0, "at the end")


@case("build: the line that says how far it is")
def line(scratch):
    here, log = Repository(scratch), scratch / "log"
    loader = importlib.machinery.SourceFileLoader("build", str(here.top / "bin/build"))
    build = importlib.util.module_from_spec(importlib.util.spec_from_loader("build", loader))
    loader.exec_module(build)
    needed = build.crates_below(("aigmc",))
    make(log, "rt: base is kept: an earlier run proved it\nrt: extra proved\nrt: aigmc NOT PROVED\n")
    # extra took 90 seconds and costs 1 minute, aigmc costs 2: 180 seconds.
    costs = {"base": 5, "extra": 1, "aigmc": 2}
    told = [build.far(needed, it, pathlib.Path("/nowhere"), log, 90) for it in (costs, {})]
    head, tail = "1 min 30 s: 2 of 3 crates proved, 1 of them before", "; now: the programs are run"
    expect(told, [f"{head}, some 3 min left{tail}", head + tail], "what it says, with costs and without")
    expect(build.proof_costs(), {}, "the costs where there is no table")
    (here.top / "docs").mkdir()
    make(here.top / "docs/GATE.md", "| `base` | 5.0 |\n| **All crates** | 9.0 |\n")
    # Four others of one size share 4.
    expect(build.proof_costs(), {"base": 5} | dict.fromkeys(("extra", "aigcheck", "aigmc", "other"), 1), "the costs")


@case("build: two at once")
def two(scratch):
    here = Repository(scratch)
    make(scratch / "slow", "")
    running = [here.begun(), here.begun()]
    told = [it.communicate(timeout=60)[1] for it in running]
    expect([it.returncode for it in running], [0, 0], "the statuses")
    expect(here.builds(), 1, "how often they build")
    expect(sum(b"bin/build: it waits for another one\n" in it for it in told), 1, "how many say that they wait")


@case("build: it fails")
def fails(scratch):
    here = Repository(scratch)
    here.says()
    make(scratch / "fail", "")
    make(here.source(), "two\n")
    done = call(here.top / "bin/aigmc", cwd=scratch, env=here.environment)
    expect((done.status, done.out), (3, b""), "what it does")
    expect(done.told.splitlines()[-1], b"not built; build.log says why", "what it says")
    expect(os.listdir(scratch / "temporary"), [], "what it leaves")


def sleeping(process):
    """The process below another one that sleeps."""
    return next((number for number, name in children(process).items() if name == "sleep"), None)


@case("build: SIGTERM and SIGINT")
def signalled(scratch):
    here = Repository(scratch)
    make(scratch / "endless", "")
    for number in (signal.SIGTERM, signal.SIGINT):
        running = here.begun()
        builder = wait_for(lambda: next(iter(children(running.pid)), None), "rt is not called")
        wait_for((scratch / "builds").exists, "rt does not begin")
        below = wait_for(lambda: sleeping(builder), "rt calls nothing")
        running.send_signal(number)
        _, told = running.communicate(timeout=60)
        # A process that was killed is there for a moment.
        wait_for(lambda: not (is_there(builder) or is_there(below)), "rt goes on")
        expect((running.returncode, told.splitlines()[-1]), (-number, b"bin/build: stopped"), "what it does")
        expect(os.listdir(scratch / "temporary"), [], "what it leaves")
