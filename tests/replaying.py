"""Runs of a built program, most of them of `upsd replay`, and the line that is printed a case."""
import contextlib
import inspect
import os
import re
import subprocess
import sys
import tempfile
import time
import tty

from plain_server import Replay, Server

HERE = os.path.dirname(os.path.abspath(__file__))
# How long a program may run, in seconds.
PATIENCE = 1500 if "EMULATED" in os.environ else 300


def built(*names):
    """The paths of these programs, each of which is built if it is older than a source."""
    subprocess.run(["bash", "-c", f'source "{HERE}/built.bash"; built "$@"', sys.argv[0], *names], check=True)
    return [f"{os.path.dirname(HERE)}/crates/{name}/out/{name}" for name in names]


class Bench:
    """The program, a folder for its files, and the cases."""

    def __init__(self, name, program):
        self.name, self.program, self.failed = name, program, 0
        self.folder = tempfile.TemporaryDirectory()

    def library(self, name):
        """Compiles what is loaded before the C library."""
        path = f"{self.folder.name}/{name}.so"
        subprocess.run(["cc", "-O2", "-Wall", "-Wextra", "-shared", "-fPIC", "-o", path, f"{HERE}/{name}"], check=True)
        return path

    def file(self, name, content):
        path = os.path.join(self.folder.name, name)
        with open(path, "wb") as out:
            out.write(content)
        os.chmod(path, 0o600)
        return path

    def options(self, files):
        """The words that name these files, which are written."""
        return [f"--{kind}={self.file(kind, text)}" for kind, text in files.items()]

    def replay(self, script, files):
        return self.ends("replay", *self.options(files), self.file("script", script))

    def prints(self, script, want, remarks=b"", **files):
        """The replay over these files is done, and prints this, and these remarks on standard error."""
        status, printed, faults = self.replay(script, files)
        assert (status, faults) == (0, remarks), (status, faults)
        assert printed == want, difference(printed, want)

    def agrees(self, script, **files):
        """The replay is done, and prints what the plain server does."""
        self.prints(script, Replay(Server(**files)).output(script), **files)

    def faults_of_words(self, status, fault, *words):
        """The program ends by this status. Standard error gets the fault's line; a terminal, or where that is asked for, this whole text."""
        line = fault.partition(b"\n")[0] + b"\n"
        command, *rest = words
        for got, want in [(self.ends(*words), line), (self.ends(command, "--explain", *rest), fault)]:
            assert got == (status, b"", want), (words, got)
        got = ends_on_a_terminal(self.program, *words, cwd=self.folder.name)
        assert got == (status, fault), (words, got)

    def faults(self, script, fault, **files):
        status, printed, faults = self.replay(script, files)
        assert (status, printed, faults) == (1, b"", fault), (status, printed[:200], faults)

    def ends(self, *words, program=None, **more):
        """How the program, given these words in the folder, ends: its status, output and errors."""
        ended = subprocess.run([program or self.program, *words], cwd=self.folder.name, stdin=subprocess.DEVNULL,
                               capture_output=True, timeout=PATIENCE, check=False, **more)  # fmt: skip
        return ended.returncode, ended.stdout, ended.stderr

    def refuses_words(self, *words, program=None):
        status, printed, faults = self.ends(*words, program=program)
        assert (status, printed, faults[:7]) == (2, b"", b"error: "), (words, status, printed, faults)

    def prints_help(self, named, *words, program=None):
        """It prints a help that has each of these texts, in lines of at most 80 columns."""
        status, printed, faults = self.ends(*words, program=program)
        assert (status, faults) == (0, b""), (words, status, faults)
        assert all(text in printed.decode() for text in named), (words, printed)
        assert all(len(line) <= 80 for line in printed.decode().splitlines()), printed

    def case(self, name, call, *words):
        begun = time.monotonic()
        try:
            figures = call(*words)
        except Exception as fault:  # a case that fails is reported, and the next one runs
            self.failed += 1
            line = fault.__traceback__.tb_next.tb_lineno
            print(f"{self.name}: FAILED: {name}: line {line}: {str(fault) or repr(fault)}", flush=True)
            return
        seconds = time.monotonic() - begun
        print(f"{self.name}: ok: {name}: {seconds:.1f} s{f', {figures}' if figures else ''}", flush=True)

    def run(self, module, *names):
        """Runs each function of the module without a parameter, or those of these names, and ends."""
        cases = {name: it for name, it in module.items() if inspect.isfunction(it) and it.__module__ == module["__name__"]}
        for name in names or [name for name, it in cases.items() if not inspect.signature(it).parameters]:
            self.case(name.replace("_", " "), cases[name])
        self.end()

    def end(self):
        self.folder.cleanup()
        sys.exit(1 if self.failed else 0)


def text_of(path):
    with open(os.path.join(HERE, path), encoding="utf-8") as file:
        return file.read()


def sections(path):
    """The lines below each title of a file, `# TITLE`."""
    found = (section.split("\n") for section in re.split("^# ", text_of(path), flags=re.MULTILINE)[1:])
    return {title: [row for row in rows if row] for title, *rows in found}


def plain(text):
    """The text with what stands for other bytes: `<TAB>`, `<CR>`, `<N>` for N bytes x, and `<TEXT*N>` for N times the text."""
    text = re.sub(r"<([^<>]+)\*(\d+)>", lambda found: found[1] * int(found[2]), text)
    return re.sub(r"<(\d+)>", lambda number: "x" * int(number[1]), text.replace("<TAB>", "\t").replace("<CR>", "\r"))


def written(text):
    """The lines that stand there. `N* LINE` is the line N times, `$` in it an LF, and <n> its number from 1, <#> in as many digits as N
    has, <x> the number below it in hexadecimal."""
    every = []
    for line in text.splitlines():
        count, star, repeated = line.partition("* ")
        for number in range(1, int(count) + 1) if star and count.isdigit() else ():
            marks = {"<n>": str(number), "<#>": str(number).zfill(len(count)), "<x>": f"{number - 1:02X}", "$": "\n"}
            every.append(plain(re.sub("|".join(map(re.escape, marks)), lambda mark: marks[mark[0]], repeated)))
        every += [] if star and count.isdigit() else [plain(line)]
    return lines(every)


def cases(path):
    """The title of each case of a file, what it has, and its files. A case begins with a line `== TITLE`. After lines `-- ups`, `-- users`
    and `-- vars` stand the files, after `-- script` the script, or after `-- cut` one whose last line has no LF, after `-- output` what is
    printed, whose last line is blank where a case follows, and after `-- fault` the fault."""
    for case in re.split("^== ", text_of(path), flags=re.MULTILINE)[1:]:
        title, text = case.split("\n", 1)
        parts = dict(re.findall(r"^-- (\w+)\n(.*?)(?=^-- |\Z)", text, re.MULTILINE | re.DOTALL))
        yield title, parts, {kind: written(parts[kind]) for kind in ("ups", "users", "vars") if kind in parts}


def ends_in_full(*words):
    """How a program ends whose output is full: its status and errors."""
    with open("/dev/full", "wb") as full:
        ended = subprocess.run(words, stdout=full, stderr=subprocess.PIPE, timeout=60, check=False)
    return ended.returncode, ended.stderr


def terminal_ends():
    """Both ends of a terminal that changes no byte."""
    reading, terminal = os.openpty()
    tty.setraw(terminal)
    return reading, terminal


def written_to(reading, writing):
    """All that was written to a pipe or a terminal, both of whose ends are closed."""
    os.close(writing)
    text = b""
    with contextlib.suppress(OSError):  # of a terminal that nobody has open
        while piece := os.read(reading, 1 << 16):
            text += piece
    os.close(reading)
    return text


def ends_on_a_terminal(*words, **more):
    """How a program ends whose standard error is a terminal: its status, and what is shown there."""
    reading, terminal = terminal_ends()
    ended = subprocess.run(words, stdin=subprocess.DEVNULL, stdout=subprocess.DEVNULL, stderr=terminal, timeout=60, check=False, **more)
    return ended.returncode, written_to(reading, terminal)


def each(rows, check):
    """Checks each row, and reports all that fail."""
    rows, failed = list(rows), []
    for row in rows:
        try:
            check(*row)
        except AssertionError as error:
            failed.append(f"{row[0]}: {error}")
    assert not failed, "\n".join(failed)
    return f"{len(rows)} cases"


def difference(got, want):
    at = next((i for i, pair in enumerate(zip(got, want)) if pair[0] != pair[1]), min(len(got), len(want)))
    return f"{len(got)} bytes, not {len(want)}; at byte {at}: {got[at - 40:at + 60]!r}, not {want[at - 40:at + 60]!r}"


def lines(every):
    return "".join(f"{line}\n" for line in every).encode()


def sent(who, text):
    return Replay.part(who.encode(), text)
