"""Judges the wrong bodies of crates/NAME/edits.txt, which the proofs must refuse, many in one check.

usage: edits.py [NAME ..]          at the top of the repository, over the libraries that `rt ci` or `make` built there
       edits.py --beside LOG       while `rt ci` runs and its words go to LOG: a crate waits until those below it are built
       edits.py --anew [NAME ..]   judges all

An entry of edits.txt has lines: what is wrong; the file and, after a comma, the function as a check names it; then
pairs "- TEXT" and "+ TEXT", each of one line, whose first stands in the file exactly once. Blank lines part entries.

Entries of different functions make a round: one check of the edited functions and what they call. Refused is an
entry only where a goal of its own function stays open; that a callee isn't proved counts for nothing, since a caller
is checked against its callee's contract. A round counts only where it reached the prover and no function that nobody
edited has an open goal; else it is halved. What a round left is judged alone. Of each refused entry it is said whether its function has
a proof by hand, which may hand over a witness that no longer fits though another one would. The last line says how many were refused.

What was refused is kept on this machine beside what `rt ci` keeps, by a sum of the entry, of this file, of the kit and
of all sources that the check reads. So a later run over the same sources judges the others."""
import concurrent.futures as futures
import contextlib
import hashlib
import itertools
import json
import os
import re
import shutil
import subprocess
import sys
import tempfile
import time

sys.path.insert(0, os.path.join(os.path.dirname(os.path.abspath(__file__)), "../tools"))
from kit import rt, rtlib

LIST = "edits.txt"
KEPT = f"{rt.STORE}-edits"
BY_HAND = ", of a proof by hand"


class Edit:
    """An entry of a crate's list."""

    def __init__(self, crate, entry):
        self.title, place, *pairs = entry.split("\n")
        self.name = f"{crate.name}: {self.title}"
        self.path, _, self.function = place.partition(", ")
        self.by_hand = os.path.isdir(os.path.join(crate.folder, "proofs", *self.function.split("::")))
        self.pairs = [(old[2:], new[2:]) for old, new in zip(pairs[::2], pairs[1::2])]
        # In the form of the kit, which says why an entry can't be applied.
        self.text = f"file: {self.path}\n" + "".join(f"old: {old}\nnew: {new}\n" for old, new in self.pairs)
        self.why = rt.edited(self.text, crate.folder)[1]


def edits_of(crate):
    text = rtlib.text_of(f"{crate.folder}/{LIST}") or ""
    entries = [it for it in re.split(r"\n{2,}", text.strip()) if it and not it.startswith("#")]
    return [Edit(crate, it) for it in entries]


def check(crate, edits, kept):
    """Checks the edited functions of a copy of the crate with all these edits, and returns its status and lines."""
    only = [word for it in edits for word in ("--only", it.function)]
    with tempfile.TemporaryDirectory(prefix="edits-") as room:
        for part in rtlib.PARTS:
            if os.path.isdir(f"{crate.folder}/{part}"):
                shutil.copytree(f"{crate.folder}/{part}", f"{room}/{part}")
        for it in edits:
            with open(f"{room}/{it.path}", encoding="utf-8") as file:
                text = file.read()
            for old, new in it.pairs:
                text = text.replace(old, new)
            with open(f"{room}/{it.path}", "w", encoding="utf-8") as file:
                file.write(text)
        words = [rtlib.RATTLE, "check", *crate.words(["--jobs", "1"], keeps=False), "--incremental", kept, *only]
        how = {"stdin": subprocess.DEVNULL, "stdout": subprocess.PIPE, "stderr": subprocess.STDOUT}
        ran = subprocess.run([*rtlib.guarded(), *words], cwd=room, text=True, errors="replace", **how)
        return ran.returncode, ran.stdout.rstrip("\n").split("\n")


def open_goals(lines, crate):
    """Returns of each function that has open goals of its own what the check says of them."""
    found, note = {}, ""
    for line, next_line in zip(lines, [*lines[1:], ""]):
        # Notes on a function stand before its line.
        open_goal = re.match(r"note: src/\S+: (it is not proved that .*)", line)
        note = note or (open_goal[1] if open_goal else "")
        of = re.match(r"fn (\S+): (.*)", line)
        if of:
            by_search = re.match(r"(?:no proof|not proved): .*`search` did not prove (.*)", of[2])
            if by_search or note and re.match("no proof|not proved", of[2]):
                found.setdefault(of[1], by_search[1] if by_search else note)
            note = ""
        # What names a thing that the edit took away says little of the contract. Two lines may say it.
        at = re.match(r"(?:\./)?proofs/(\S+)/(?:Answers|Invariants|Proof)\.antt:\d+:\d+: error: (.*)", line)
        if at and not re.search(r"is not in scope|has no field|has no `|was not admitted|was rejected", at[2] + next_line):
            found.setdefault("::".join([crate.name, *at[1].split("/")]), at[2])
    return found


def is_of(function, crate, edit):
    """Tells whether a check's function is that of an edit, or a closure in it."""
    symbol = f"{crate.name}::{edit.function}"
    owner, _, name = symbol.rpartition("::")
    plain = re.sub(r"<[^>]*>", "", function).replace("+", "")
    return plain == symbol or plain.startswith((f"{symbol}::", f"{owner}::fn::{name}::"))


def in_round(crate, edits, kept):
    """Judges edits in one check. Returns what is said of each that is refused."""
    if not edits:
        return {}
    status, lines = check(crate, edits, kept)
    reached = status in (0, 1) and lines[-1].startswith("only=")
    unread = any(rt.unread(line, {it.path for it in edits}) for line in lines)
    goals = open_goals(lines, crate)
    if reached and not unread and all(any(is_of(it, crate, edit) for edit in edits) for it in goals):
        said = {it: [f"{f}: {why}" for f, why in goals.items() if is_of(f, crate, it)] for it in edits}
        return {it: why[0] for it, why in said.items() if why}
    half = len(edits) // 2
    return {**in_round(crate, edits[:half], kept), **in_round(crate, edits[half:], kept)} if half else {}


def rounds_of(edits):
    """Returns rounds of edits, in each at most one of a function."""
    rounds = []
    for edit in edits:
        fit = next((it for it in rounds if edit.function not in {other.function for other in it}), None)
        if fit is None:
            rounds.append(fit := [])
        fit.append(edit)
    return rounds


def kept_file(crate):
    """The file of what was refused over just these sources of a crate."""
    with open(__file__, "rb") as own:
        return f"{KEPT}/{crate.name}-{hashlib.sha256(own.read() + crate.stamp().encode()).hexdigest()}"


def judge(crate, edits, anew=False):
    """Judges a crate's edits. Returns what is said of each that is refused, and the names of those that aren't."""
    if not all(is_there(it) for it in crate.below()):
        return [], [f"{crate.name} (a library below it isn't built, or has changed since)"]
    file, before = kept_file(crate), {}
    if not anew:
        with contextlib.suppress(OSError, ValueError), open(file, encoding="utf-8") as it:
            before = json.load(it)
    key = lambda edit: f"{edit.function}\n{edit.text}"
    judged = {it: before[key(it)] for it in edits if not it.why and key(it) in before}
    # What a round proves serves the next one.
    with tempfile.TemporaryDirectory(prefix="edits-kept-") as kept:
        # An edit whose function calls another one that is edited may stay in a round: it is judged alone then.
        for some in itertools.chain(rounds_of([it for it in edits if it not in judged]), ([it] for it in edits)):
            left = [it for it in some if it not in judged and it.function and not it.why]
            judged |= in_round(crate, left, kept)
            if left and not anew:
                keep(file, before | {key(it): why for it, why in judged.items()})
    said = [f"{it.name}: refused{BY_HAND * it.by_hand}: {why[:160]}" for it, why in judged.items()]
    return said, [it.name + f" ({it.why})" * bool(it.why) for it in edits if it not in judged]


def keep(file, refused):
    """Keeps what was refused, where that may be written."""
    with contextlib.suppress(OSError):
        os.makedirs(KEPT, 0o700, exist_ok=True)
        with tempfile.NamedTemporaryFile("w", dir=KEPT, delete=False, encoding="utf-8") as it:
            json.dump(refused, it)
        os.replace(it.name, file)


def is_there(crate):
    """Tells whether a library is there to check over: that of `rt ci`, which has no stamp, or one that `make` built of these files."""
    return os.path.isdir(crate.rlib) and (crate.is_built() or not os.path.isfile(f"{os.path.dirname(crate.rlib)}/stamp"))


def is_ready(crate, said):
    """Tells whether `rt ci`, which said this, has ended, or has built what is below a crate."""
    is_over = re.search(r"^\d+ passed, \d+ failed$", said, re.M)
    return is_over or {it.name for it in crate.below()} <= set(re.findall(r"^rt: (\S+) (?:proved|is kept)", said, re.M))


def main(words):
    rtlib.guarded()
    log, names = (words[1], []) if words[:1] == ["--beside"] else (None, [it for it in words if it != "--anew"])
    left = [it for it in rtlib.crates_below(os.getcwd()) if edits_of(it) and (not names or it.name in names)]
    running, refused, by_hand, failed = set(), 0, 0, []
    with futures.ThreadPoolExecutor(rt.processors()) as pool:
        while left or running:
            log_said = log and rtlib.text_of(log) or ""
            for crate in [it for it in left if not log or is_ready(it, log_said)]:
                left.remove(crate)
                edits = edits_of(crate)
                print(f"edits: {crate.name}: {len(edits)} edits in {len(rounds_of(edits))} rounds", flush=True)
                running.add(pool.submit(judge, crate, edits, "--anew" in words))
            done, running = futures.wait(running, 1, futures.FIRST_COMPLETED)
            for said, stayed in (it.result() for it in done):
                for line in said:
                    print(f"edits: {line}", flush=True)
                refused += len(said)
                by_hand += sum(BY_HAND in line for line in said)
                failed += stayed
            if not running:
                time.sleep(1)
    for name in failed:
        print(f"edits: FAILED: {name}")
    print(f"edits: {by_hand} refused of functions with a proof by hand")
    print(f"edits: {refused} refused, {len(failed)} failed", flush=True)
    return 1 if failed else 0


if __name__ == "__main__":
    sys.exit(main(sys.argv[1:]))
