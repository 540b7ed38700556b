"""The built programs, and calls of them."""

import pathlib
import re
import subprocess
import tempfile

FOLDER = pathlib.Path(__file__).resolve().parent.parent
TOP = FOLDER.parent
CRATES = TOP / "crates"

LIMIT_SECONDS = 120


def executable(program):
    """The path of a built program."""
    return str(CRATES / program / "out" / program)


def words_of(command, scratch):
    """The words of a command, with the program and the files that it makes as paths."""
    program, *words = command.split()
    made = [str(scratch / word) if word.startswith("OUT.") else word for word in words]
    return [executable(program), *made]


def run(words, **how):
    """What a program does with these words."""
    return subprocess.run(words, capture_output=True, timeout=LIMIT_SECONDS, check=False, **how)


def answered(command):
    """What a program answers to these words: its status, and what it puts."""
    done = run(command, cwd=FOLDER)
    return done.returncode, done.stdout


def called(program, words, *texts):
    """What a program does with these words and texts. Of what it makes, the bytes come too."""
    with tempfile.TemporaryDirectory() as folder:
        paths = [pathlib.Path(folder) / f"{at}" for at in range(len(texts))]
        for path, text in zip(paths, texts):
            path.write_bytes(text)
        made = [str(pathlib.Path(folder) / it) for it in words[1:]]
        done = run([executable(program), words[0], *map(str, paths), *made])
        out = pathlib.Path(made[0]).read_bytes() if made and pathlib.Path(made[0]).exists() else b""
    return done, out


def fault_of(done):
    """The fault that `aigmc` told, as `fault NUMBER at PLACE`, or nothing where it told none."""
    told = re.fullmatch(rb"aigmc: (fault \d+ at \d+)\n", done.stderr)
    return told[1] if done.returncode == 3 and told and not done.stdout else None
