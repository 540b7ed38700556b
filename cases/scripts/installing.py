"""Cases of make install, of symbolic links to scripts, and of their --help."""

import os
import pathlib
import re
import shutil
import tempfile

from trial import HOLDS, TOP, VIOLATED, NotTried, call, case, expect, make, make_script

PROGRAMS = ("aigcheck", "aigmc")
INSTALLED = ("aigcheck", "aigmc", "aigmc-hwmcc", "check-all", "from-verilog", "properties")
FILES = [
    *(f"bin/{name}" for name in INSTALLED),
    *(f"share/bash-completion/completions/{name}" for name in PROGRAMS),
    "share/lugyveron/calls.py",
    "share/lugyveron/circuits.py",
    *(f"share/man/man1/{name}.1" for name in INSTALLED),
    *(f"share/zsh/site-functions/_{name}" for name in PROGRAMS),
]


def files_below(folder):
    """The files below a folder."""
    return sorted(str(path.relative_to(folder)) for path in folder.rglob("*") if not path.is_dir())


def made(scratch, goal):
    """What `make` does into a scratch folder. Gives the folder of its files."""
    if not shutil.which("make"):
        raise NotTried("there is no make")
    done = call("make", "-s", goal, "PREFIX=/usr", f"DESTDIR={scratch}/root dir", cwd=TOP)
    expect((done.status, done.out, done.told), (0, b"", b""), f"make {goal}")
    return scratch / "root dir/usr"


@case("make install and make uninstall")
def installed(scratch):
    folder = made(scratch, "install")
    expect(files_below(folder), sorted(FILES), "the files")
    for name in INSTALLED:
        expect(os.access(folder / "bin" / name, os.X_OK), True, f"whether {name} is run")
    make(folder / "bin/another", "")
    made(scratch, "uninstall")
    expect(files_below(folder), ["bin/another"], "the files behind make uninstall")
    expect((folder / "share/lugyveron").exists(), False, "whether the folder of the modules is left")


@case("make install before anything was built")
def unbuilt(scratch):
    if not shutil.which("make"):
        raise NotTried("there is no make")
    shutil.copy(TOP / "Makefile", scratch)
    done = call("make", "-s", "install", f"DESTDIR={scratch}/root", cwd=scratch)
    said = b"make install: bin/build has not built aigmc yet\n"
    expect((done.told.startswith(said), (scratch / "root").exists()), (True, False), f"what it does: {done.told!r}")
    expect(done.status != 0, True, "whether it fails")


@case("the installed scripts run without the repository")
def run(scratch):
    folder = made(scratch, "install")
    make_script(scratch / "rt", "echo rt was called; exit 1")
    environment = {"PATH": f"{scratch}:/usr/bin:/bin"}
    make(scratch / "circuit.aag", VIOLATED)
    wanted = {
        ("check-all", "--out", "made", "circuit.aag"): 1,
        ("aigmc-hwmcc", "circuit.aag"): 10,
        ("properties", "circuit.aag"): 0,
        ("aigmc", "check", "circuit.aag", "-p", "b0"): 1,
        ("aigcheck", "run", "circuit.aag", "made/circuit.aag/b0.stim"): 0,
        ("from-verilog", "--help"): 0,
    }
    for (name, *words), status in wanted.items():
        done = call(folder / "bin" / name, *words, cwd=scratch, env=environment)
        expect((done.status, b"rt was called" in done.out + done.told), (status, False), f"the status of {name}")
    expect([path for path in files_below(folder) if path not in FILES], [], "the files that running makes")


@case("scripts by symbolic links")
def links(scratch):
    folder = made(scratch, "install")
    make(scratch / "circuit.aag", HOLDS)
    for place in (TOP / "bin", folder / "bin"):
        for name, words, status in (
            ("aigmc", ("check", "circuit.aag", "-p", "b0", "--cert", "cert"), 0),
            ("aigcheck", ("safe", "circuit.aag", "cert"), 0),
            ("aigmc-hwmcc", ("circuit.aag",), 20),
            ("check-all", ("circuit.aag",), 0),
            ("properties", ("circuit.aag",), 0),
        ):
            with tempfile.TemporaryDirectory(prefix="my bin") as links_folder:
                first, second = pathlib.Path(links_folder, "my-link"), pathlib.Path(links_folder, name)
                first.symlink_to(place / name)
                second.symlink_to(first.name)
                for path in (first, second):
                    done = call(path, *words, cwd=scratch)
                    told = done.told.replace(b"circuit.aag b0: holds, 0 s, checked: yes\n", b"")
                    expect((done.status, told), (status, b""), f"{path} to {place}")


@case("robustness: a name that no case has")
def no_such_case(scratch):
    for name in ("refused", "devices"):
        done = call(TOP / "robustness" / name, "none", cwd=scratch)
        expect((done.status, done.out, done.told != b""), (3, b"", True), f"what {name} does")


@case("--help of each script")
def helps(scratch):
    make_script(scratch / "rt", "exit 1")
    environment = os.environ | {"PATH": f"{scratch}:{os.environ['PATH']}"}
    names = sorted(path.name for path in (TOP / "bin").iterdir() if path.is_file())
    expect([name for name in INSTALLED if name not in names], [], "what is installed and not there")
    for name in names:
        more = {"env": environment} if name == "build" else {}
        done = call(TOP / "bin" / name, "--help", cwd=scratch, **more)
        expect((done.status, done.told), (0, b""), f"{name} --help")
        expect(name.encode() in done.out, True, f"whether {name} --help has its name")
        with open("/dev/full", "wb") as device:
            status = call(TOP / "bin" / name, "--help", cwd=scratch, stdout=device, **more).status
        expect(status != 0, True, f"whether {name} --help fails on a full device")
    folders = [TOP / folder for folder in ("cases", "bench", "robustness", "tools")]
    paths = [path for folder in folders for path in sorted(folder.iterdir())]
    for path in (path for path in paths if path.is_file() and os.access(path, os.X_OK)):
        done = call(path, "--help", cwd=scratch)
        is_said = len(done.out.splitlines()) > (5 if path.parent.name == "cases" else 3)
        expect((done.status, done.told, is_said), (0, b"", True), f"{path.parent.name}/{path.name} --help")


@case("each option of a script's help is in its man page")
def pages(scratch):
    for name in ("aigmc-hwmcc", "check-all", "from-verilog", "properties"):
        text = call(TOP / "bin" / name, "--help", cwd=scratch).out.decode()
        page = (TOP / "man" / f"{name}.1").read_text().replace("\\", "")
        options = set(re.findall(r"(?<![\w-])--?[a-zA-Z][a-z-]*", text)) - {"-r", "-map", "--aig"}
        missing = [option for option in options if not re.search(rf"(?<![\w-]){re.escape(option)}", page)]
        expect(missing, [], f"what the page of {name} leaves out")
