"""Whether `aigcheck` accepts the evidence that `aigmc` makes in a case."""

import pathlib
from collections import Counter

from runner.programs import FOLDER, answered, words_of


def unbacked(case, status, printed, scratch):
    """What is wrong where the evidence for what was answered is not accepted."""
    if status == 1:
        return unconfirmed(case, printed, scratch)
    return uncertified(case, printed, scratch) if status == 0 else []


def unconfirmed(case, stimulus, scratch):
    """What is wrong where `aigcheck run` does not confirm the stimulus that was printed."""
    path = scratch / "printed.stim"
    path.write_bytes(stimulus)
    _, said = answered(words_of(f"aigcheck run {case['command'].split()[2]} {path}", scratch))
    wanted = b"yes run " + stimulus.split(b"\n")[1] + b"\n"
    return [] if said == wanted else [f"the stimulus is not confirmed: {said!r}"]


def uncertified(case, printed, scratch):
    """What is wrong where the certificate that is asked for is not accepted by `aigcheck safe`."""
    words = case["command"].split()
    if "--witness" in words:
        at = words.index("--witness")
        words[at : at + 2] = []
    asks = words if "--cert" in words else [*words, "--cert", "OUT.kept"]
    path = scratch / asks[asks.index("--cert") + 1]
    again = answered(words_of(" ".join(asks), scratch))
    if again != (0, printed):
        return [f"another answer where the certificate is asked for: {again}"]
    _, said = answered(words_of(f"aigcheck safe {case['command'].split()[2]} {path}", scratch))
    wanted = b"yes safe " + printed.split(b"\n")[1] + b"\n"
    return [] if said == wanted else [f"the certificate is not accepted: {said!r}"]


def head_of(path):
    """The first line of a certificate, and the property of its second one."""
    version, claim, *_ = path.read_text(encoding="ascii").splitlines()
    return version, claim.partition(" ")[0]


def claimed(words):
    """The property that a certificate is to be made of: that of another one, or the one that is asked for, or the first."""
    if words[1] == "recertify":
        return head_of(FOLDER / words[3])[1]
    return words[words.index("-p") + 1] if "-p" in words else "b0"


def unaccepted(case, status, scratch):
    """What is wrong with the certificate that was made of clauses, or with what was made beside a refusal."""
    words = words_of(case["command"], scratch)
    if status != 0:
        left = sorted(it.name for it in scratch.iterdir())
        return [f"{' '.join(left)} was made"] if left else []
    is_third = words[1] in ("recertify", "adopt-witness") or "--extension" in words
    path = next(pathlib.Path(word) for word in words if word.startswith(str(scratch)))
    version, _ = head_of(path)
    if is_third != (version == "aigcert 3"):
        return [f"the certificate begins with {version}"]
    name = claimed(words)
    _, said = answered(words_of(f"aigcheck safe {words[2]} {path}", scratch))
    return [] if said == f"yes safe {name}\n".encode() else [f"the certificate is not accepted: {said!r}"]


def by_ic3(case, scratch):
    """What is wrong with what IC3 alone answers: another status, or evidence that is not accepted."""
    by_engine = dict(case, command=case["command"] + " --engine ic3")
    status, printed = answered(words_of(by_engine["command"], scratch))
    if status != int(case["status"]):
        return [f"IC3 answers with status {status}"]
    return [f"by IC3: {fault}" for fault in unbacked(by_engine, status, printed, scratch)]


def unshown(case, status, printed, scratch):
    """What is wrong with the folder that `aigmc all` makes for what it printed, or with what `aigcheck all` says."""
    folder = scratch / "evidence"
    folder.mkdir()
    again = answered(words_of(f"{case['command']} --out {folder}", scratch))
    if again != (status, printed):
        return [f"another answer where the evidence is asked for: {again}"]
    texts = [text + b"\n.\n" for text in printed.split(b"\n.\n") if text]
    verdicts = [(text[:1], text.split(b"\n")[1].decode(), text) for text in texts]
    return misplaced(verdicts, folder) + unjudged(verdicts, case["command"].split()[2], folder, scratch)


def misplaced(verdicts, folder):
    """What is wrong with the files of a folder of evidence for these verdicts: one is missing, too many, or another."""
    made = {path.name: path.read_bytes() for path in folder.iterdir()}
    due, faults = {b"0": ".cert", b"1": ".stim"}, []
    if sorted(made) != sorted(name + due[verdict] for verdict, name, _ in verdicts if verdict in due):
        faults.append(f"the folder has {sorted(made)}")
    if any(made.get(name + ".stim") != text for verdict, name, text in verdicts if verdict == b"1"):
        faults.append("another stimulus in the folder than was printed")
    return faults


def unjudged(verdicts, circuit, folder, scratch):
    """What is wrong with what `aigcheck all` says of a folder of evidence for these verdicts."""
    words = {b"0": "yes safe", b"1": "yes run", b"2": "no evidence"}
    lines = [f"{words[verdict]} {name}\n" for verdict, name, _ in verdicts]
    wanted, counts = judged(verdict for verdict, _, _ in verdicts)
    said = answered(words_of(f"aigcheck all {circuit} {folder}", scratch))
    is_so = said == (wanted, "".join([*lines, counts]).encode())
    return [] if is_so else [f"the evidence is not accepted: {said!r}"]


def judged(verdicts):
    """The status of `aigcheck all` where the folder has the evidence for these verdicts, and its last line."""
    count = Counter(verdicts)
    safe, violated, without = count[b"0"], count[b"1"], count[b"2"]
    status = 1 if violated else 2 if without or not safe else 0
    return status, f"{safe} safe, {violated} violated, {without} without evidence\n"
