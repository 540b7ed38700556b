"""Certificates of version 3 with a small change each, and whether two programs say the same of them."""

import collections
import pathlib
import random
import re
import subprocess
import sys
from importlib.machinery import SourceFileLoader

from extended import write_clauses, write_lines, write_wide

TOP = pathlib.Path(__file__).resolve().parent.parent
FILES = TOP / "cases" / "files"
AIGMC = TOP / "crates" / "aigmc" / "out" / "aigmc"
LIMIT_SECONDS = 60
# How many random circuits with clauses are tried, and what a number is changed to beside a small one.
TRIED = 120
GREAT = ["0", "-1", "007", "", "4194303", "4194304", "2147483647", "2147483648", "4294967295", "4294967296"]

# A latch that keeps its value: with lines that add and delete, and with ids far apart; beside variables that nothing
# defines, with a gate of the extension; and with an output in place of the bad literal. Each with its certificate.
LATCHES = [
    ("aag 1 0 1 0 0 1\n2 2\n2\n",
     "aigcert 3\nb0\n0 0\n1\n1 3\ni\n.\n1 1\ns\n6 3 -1 0 5 0\n900000 -4 -1 0 5 0\n1 d 6 5 0\n"
     "4294967290 -1 0 900000 4 0\n.\n2 2 4294967290\nb\n4 0 2 3 0\n.\n"),
    ("aag 3 0 1 0 0 1\n2 2\n2\n",
     "aigcert 3\nb0\n0 1\n8 3 3\n1\n1 8\ni\n.\n2 1 5\ns\n.\n4 11 2 5 10\nb\n7 0 5 2 6 0\n.\n"),
    ("aag 1 0 1 1 0\n2 2\n2\n",
     "aigcert 3\no0\n0 0\n1\n1 3\ni\n.\n1 1\ns\n.\n2 2 5\nb\n4 0 2 3 0\n.\n"),
]


def put_number(lines, choice, other):
    """What is made of a number stands in its place."""
    at = choice.randrange(1, len(lines))
    numbers = list(re.finditer(r"-?\d+", lines[at]))
    if numbers:
        found = choice.choice(numbers)
        lines[at] = lines[at][: found.start()] + other(int(found[0])) + lines[at][found.end() :]


def change_near(lines, choice):
    """Another number near it in place of one."""
    put_number(lines, choice, lambda number: str(abs(number + choice.choice((-3, -2, -1, 1, 2, 3)))))


def change_number(lines, choice):
    """Any other number in place of one, or none."""
    put_number(lines, choice, lambda number: choice.choice([str(choice.randrange(60)), str(-number), *GREAT]))


def drop_line(lines, choice):
    """One line less."""
    del lines[choice.randrange(1, len(lines))]


def repeat_line(lines, choice):
    """A line stands in another place too."""
    lines.insert(choice.randrange(1, len(lines) + 1), choice.choice(lines[1:]))


def swap_lines(lines, choice):
    """Two lines in each other's place."""
    one, two = (choice.randrange(1, len(lines)) for _ in range(2))
    lines[one], lines[two] = lines[two], lines[one]


def swap_numbers(lines, choice):
    """Two numbers of a line in each other's place."""
    at = choice.randrange(1, len(lines))
    words = lines[at].split(" ")
    one, two = (choice.randrange(len(words)) for _ in range(2))
    words[one], words[two] = words[two], words[one]
    lines[at] = " ".join(words)


def counted(words, changed):
    """The changed numbers of a line, with the count right where the first number was one of those behind it."""
    was_counted = words[0] == str(len(words) - 1)
    return " ".join([str(len(changed) - 1), *changed[1:]] if was_counted else changed)


def drop_number(lines, choice):
    """A line has one number less."""
    at = choice.randrange(1, len(lines))
    words = lines[at].split(" ")
    place = choice.randrange(len(words))
    if len(words) > 1:
        lines[at] = counted(words, words[:place] + words[place + 1 :] if place else words[:-1])


def repeat_number(lines, choice):
    """A number of a line stands in another place of it too, or a small one does."""
    at = choice.randrange(1, len(lines))
    words = lines[at].split(" ")
    place = choice.randrange(1, len(words) + 1)
    more = choice.choice([*words, str(choice.randrange(1, 40))])
    lines[at] = counted(words, words[:place] + [more] + words[place:])


def change_character(lines, choice):
    """Another character, or none, in place of one."""
    at = choice.randrange(1, len(lines))
    line = lines[at] + "\n"
    place = choice.randrange(len(line))
    lines[at] = (line[:place] + choice.choice(["", " ", "0", "1", "-", "d", ".", "\n"]) + line[place + 1 :])[:-1]


CHANGES = [change_near] * 4 + [swap_numbers, drop_number, repeat_number, repeat_number]
CHANGES += [change_number, drop_line, repeat_line, swap_lines, change_character]


def mutant(text, choice):
    """The text with one change behind its first line."""
    changed = text
    while changed == text:
        lines = text.split("\n")[:-1]
        choice.choice(CHANGES)(lines, choice)
        changed = "\n".join(lines) + "\n"
    return changed


def of_cases():
    """The certificates of the cases with their circuits."""
    pairs = []
    for certificate in sorted(FILES.glob("third*.cert")):
        of_justice = certificate.read_text(encoding="ascii").split("\n")[1].startswith("j")
        pairs.append((FILES / ("hold-justice.aag" if of_justice else "hold.aag"), certificate))
    return pairs


def of_latches(folder):
    """The certificates of LATCHES with their circuits."""
    pairs = []
    for number, texts in enumerate(LATCHES):
        pairs.append([folder / f"latch-{number}{ending}" for ending in (".aag", ".cert")])
        for path, text in zip(pairs[-1], texts):
            path.write_text(text, encoding="ascii")
    return pairs


def of_generators(folder):
    """Small certificates of extended.py with their circuits."""
    ascii_file, binary_file, certificate = write_wide(folder, 3)
    pairs = [write_clauses(folder, 3), write_clauses(folder, 5), write_lines(folder, 6)]
    return [*pairs, (ascii_file, certificate), (binary_file, certificate)]


def of_random_circuits(folder, choice):
    """Certificates that aigmc makes of the random clauses of cases/recertified, where these are inductive."""
    recertified = SourceFileLoader("recertified", str(TOP / "cases" / "recertified")).load_module()
    pairs = []
    for number in range(TRIED):
        circuit, extension, clauses = recertified.drawn(choice)
        paths = [folder / f"{number}{ending}" for ending in (".aag", "-extended.aag", ".clauses", ".cert")]
        listed = "".join(" ".join(map(str, clause)) + "\n" for clause in clauses)
        for path, text in zip(paths, (circuit.text(), extension.text(), listed)):
            path.write_text(text, encoding="ascii")
        asked = [paths[0], "-p", "b0", "--invariant", paths[2], "--cert", paths[3], "--extension", paths[1]]
        done = subprocess.run([AIGMC, "certify", *asked], capture_output=True, check=False, timeout=LIMIT_SECONDS)
        if done.returncode == 0:
            pairs.append((paths[0], paths[3]))
    return pairs


def certificates(folder, choice):
    """All certificates with their circuits."""
    pairs = [*of_cases(), *of_latches(folder), *of_generators(folder)]
    if not AIGMC.exists():
        print(f"{AIGMC} is not there: no certificates of random circuits")
        return pairs
    more = of_random_circuits(folder, choice)
    if not more:
        sys.exit("aigmc makes no certificate of the random circuits")
    return pairs + more


def answer(program, circuit, certificate):
    """The status and the line of a program, or that it does not end."""
    words = [program, "safe", circuit, certificate]
    try:
        done = subprocess.run(words, capture_output=True, check=False, timeout=LIMIT_SECONDS)
    except subprocess.TimeoutExpired:
        return None, f"no answer in {LIMIT_SECONDS} s"
    return done.returncode, done.stdout.decode(errors="replace").strip()


def compared(programs, circuit, certificate):
    """What the first program says, and the words of a difference: a program that judges nothing differs too."""
    answers = [answer(program, circuit, certificate) for program in programs]
    is_judged = all(status in (0, 1) for status, _ in answers)
    return answers[0][1], "" if is_judged and answers[0] == answers[1] else f"{answers[0]} and {answers[1]}"


def keep(kept, name, circuit, text):
    """Writes a certificate with its circuit, and says where it is."""
    kept.mkdir(parents=True, exist_ok=True)
    (kept / f"{name}{circuit.suffix}").write_bytes(circuit.read_bytes())
    (kept / f"{name}.cert").write_text(text, encoding="ascii")
    return kept / f"{name}.cert"


def agreement(programs, count, seed, folder, kept):
    """Compares the programs over the certificates and COUNT mutants, and prints where they differ.

    It answers whether they differ nowhere, and do not say the same of all. What they differ of is kept in KEPT.
    """
    choice, differing, said = random.Random(seed), 0, collections.Counter()
    whole = [(circuit, path.read_text(encoding="ascii")) for circuit, path in certificates(folder, choice)]
    mutants = [(circuit, mutant(text, choice)) for circuit, text in choice.choices(whole, k=count)]
    for number, (circuit, text) in enumerate(whole + mutants):
        changed = folder / "mutant.cert"
        changed.write_text(text, encoding="ascii")
        word, difference = compared(programs, circuit, changed)
        said[word] += 1
        if difference:
            differing += 1
            print(f"{keep(kept, f'{seed}-{number}', circuit, text)}: {difference}")
    answers = ", ".join(f"{word} {times}" for word, times in sorted(said.items()))
    print(f"{len(whole)} certificates and {count} mutants of them, {differing} differ ({answers})")
    return not differing and len(said) > 1
