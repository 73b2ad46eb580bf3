#!/usr/bin/env python3
"""What the built `upsd replay` prints: the tables of answers/*.rows, the scripts of scripts/*.cases, its words and its files."""
import glob
import os
import re

from answers import ADDRESS, Row, tables
from replaying import HERE, Bench, built, cases, each, ends_in_full, ends_on_a_terminal, lines, plain, sent, text_of, written

BENCH = Bench("replay", *built("upsd"))
NO_DRIVER = sent("driver su", b"")


# Tables of answers.

FILES = {option: text_of(f"answers/{name}").encode() for option, name in
         (("ups", "ups.conf"), ("users", "upsd.users"), ("vars", "descriptions"))}  # fmt: skip


def table_case(title, rows):
    """What the program prints of the table's script: each row is a client."""
    script, orders, sessions, clients = text_of("answers/server.events").splitlines(), "DUMPALL\n", b"", 0
    for row in rows:
        if isinstance(row, Row):
            clients += 1
            script += [f"open {ADDRESS}", *(f"client {clients} {line}" for line in row.lines), f"took {clients} all"]
            sessions += sent(f"client {clients}", row.answer.encode())
            orders += row.order
        elif row.startswith("> "):
            script.append(plain(row[2:]))
        else:
            orders += row[2:] + "\n"
    drivers = sent("driver off", b"") + sent("driver su", orders.encode()) + sent("driver ups", b"")
    BENCH.prints(lines([*script, "driver-took su all"]), sessions + drivers, **FILES)


# Whole scripts.


def script_case(_, parts, files):
    """What is printed is the output that stands there, or what the plain server prints."""
    script = written(parts["cut"].rstrip("\n"))[:-1] if "cut" in parts else written(parts.get("script", ""))
    faults = lines(f"upsd: {BENCH.folder.name}/{it}" for it in parts.get("fault", "").split("\n") if it)
    if "output" in parts:
        BENCH.prints(script, written(re.sub(r"(^|\n)\n\Z", r"\1", parts["output"])), faults, **files)
    elif faults:
        BENCH.faults(script, faults, **files)
    else:
        BENCH.agrees(script, **files)


def bad_lines():
    """Each row of scripts/bad_lines, between its bars, is no line of a script. It is refused where it stands."""
    rows = [row for row in text_of("scripts/bad_lines").split("\n") if row and not row.startswith("# ")]

    def is_bad(row):
        assert row[0] == row[-1] == "|", "a row stands between bars"
        line = row[1:-1].encode().decode("unicode_escape").encode("latin-1")
        for front, number in ((b"", 1), (b"up su\n# fine\n", 3)):
            BENCH.faults(front + line + b"\n", f"upsd: {BENCH.folder.name}/script:{number}: bad event\n".encode())
    BENCH.faults(b"up su\ndown su\n" * 999 + b"# fine\nup\nworse\n", f"upsd: {BENCH.folder.name}/script:2000: bad event\n".encode())
    return each([[row] for row in rows], is_bad)


# Words and files.

for name, content in {
        "two.conf": ["# two", "", "[su]", 'desc = "Server room"', "[bay-1]", "socket = /run/nut/bay"],
        "key.conf": ["[su]", "", "# the next key is none of ours", "driver = usbhid-ups"],
        "texts": ["# texts", 'VARDESC ups.status "UPS status"', 'CMDDESC load.off "Turn off the load"'],
        "twice": ["VARDESC ups.status a", "VARDESC ups.status b"],
        "monitors": ["[mon]", "password = pass", "upsmon secondary"],
        "login": ["up su", "open 192.0.2.1", *(f"client 1 {line}" for line in ("USERNAME mon", "PASSWORD pass", "LOGIN bay-1", "GET DESC bay-1 ups.status")), "took 1 all"],
        "bad": ["up su", "up", "worse"]}.items():  # fmt: skip
    BENCH.file(name, lines(content))
TWO_DRIVERS = sent("driver bay-1", b"") + NO_DRIVER
DESCRIBED = b'DESC bay-1 ups.status "UPS status"\n'
ENDS = [
    ("--ups two.conf --users monitors --vars texts login", 0, sent("client 1", b"OK\nOK\nOK\n" + DESCRIBED) + TWO_DRIVERS, b""),
    ("login --vars=texts --ups=two.conf", 0, sent("client 1", b"OK\nOK\nERR ACCESS-DENIED\n" + DESCRIBED) + TWO_DRIVERS, b""),
    ("login", 0, sent("client 1", b"OK\nOK\nERR ACCESS-DENIED\nERR UNKNOWN-UPS\n") + NO_DRIVER, b""),
    ("--vars absent --ups key.conf login", 1, b"", b"upsd: key.conf:4: cause 5\nupsd: cause 5: unknown key: driver\n"),
    ("bad --vars twice --ups two.conf", 1, b"", b"upsd: twice:2: cause 4\nupsd: cause 4: duplicate: VARDESC ups.status b\n"),
    ("--ups two.conf --vars texts absent", 1, b"", b"upsd: absent: cannot read\nupsd: absent: No such file or directory\n"),
    ("--ups . login", 1, b"", b"upsd: .: cannot read\nupsd: .: Is a directory\n"),
    ("--ups two.conf ./bad", 1, b"", b"upsd: ./bad:2: bad event\nupsd: ./bad:2: none of a script's lines, which PROTOCOL.md has\n"),
]  # fmt: skip
WRONG_WORDS = ["", "replay --ups two.conf", "replay --maxage 15 login", "replay login --ups", "replay --ups two.conf --ups two.conf login",
               "replay login login", "play login"]  # fmt: skip
HELP = {
    "--help": ["serve", "replay"],
    "serve --help": ["--ups <F>", "--users <F>", "--vars <F>", "--ids <F>", "--listen <A:P>", "127.0.0.1:3493", "--maxage <N>", "--record <F>", "--record-limit <N>"],
    "replay --help": ["<SCRIPT>", "--ups <F>", "--users <F>", "--vars <F>"],
}  # fmt: skip


def ends_so(words, *want):
    status, printed, faults = want
    if faults:
        BENCH.faults_of_words(status, faults, "replay", *words.split(" "))
    else:
        ended = BENCH.ends("replay", *words.split(" "))
        assert ended == (status, printed, b""), ended


def other_words():
    """Words that are refused, one that is no text, an output that is full, and the help."""
    for words in WRONG_WORDS:
        BENCH.refuses_words(*words.split())
    ended = BENCH.ends("replay", b"\xff"), ends_on_a_terminal(BENCH.program, "replay", b"\xff")
    assert ended == ((2, b"", b"upsd: bad argument\n"), (2, b"upsd: bad argument\nupsd: a word is not UTF-8\n")), ended
    script, failed = BENCH.file("netver", b"open 192.0.2.1\nclient 1 NETVER\ntook 1 all\n"), b"upsd: write failed\n"
    full = ends_in_full(BENCH.program, "replay", script), ends_in_full(BENCH.program, "replay", "--explain", script)
    assert full == ((1, failed), (1, failed + b"upsd: standard output is full, or nobody reads it\n")), full
    return each(HELP.items(), lambda words, named: BENCH.prints_help(named, *words.split(" ")))


# What the second line of a fault says of a line that a file doesn't take: of which file, after which lines, and the line.

KEY = "write key = value, with blanks around =, and a value with blanks in quotes"
SECTION = "write [name], a word without blanks and quotes, alone on its line"
REMARKS = [
    ("ups", '[a]\n', 'desc="x"', f"1: malformed line: desc: {KEY}"),
    ("ups", "[a]\n", "socket=/run/nut/a", f"1: malformed line: socket: {KEY}"),
    ("ups", "[a]\n", "desc x", f"1: malformed line: desc: {KEY}"),
    ("ups", "", "[s u]", f"1: malformed line: [s u]: {SECTION}"),
    ("ups", "", '["s u"]', f'1: malformed line: [\\"s u\\"]: {SECTION}'),
    ("ups", "", "[su", f"1: malformed line: [su: {SECTION}"),
    ("ups", "[a]\n", 'desc = "x', "1: malformed line: desc: a quote isn't closed"),
    ("ups", "[a]\n", 'desc = "x"y', "1: malformed line: desc: no blank follows a closing quote"),
    ("ups", "[a]\n", "desc = x\\", "1: malformed line: desc: it ends in a backslash"),
    ("ups", "[a]\n", "desc = \x01", "1: malformed line: desc: it has a control character"),
    ("ups", "[a]\n", "desc = " + 2041 * "x", "1: malformed line: desc: it has more than 2047 bytes"),
    ("ups", "[a]\n", 'desc = "x" # text', "1: malformed line: desc: a comment has a line of its own"),
    ("ups", "", "[a]\r", "1: malformed line: [a]: it ends in CR LF: end lines in LF"),
    ("ups", "", "\ufeff[a]", "1: malformed line: \\xef\\xbb\\xbf[a]: a byte order mark stands before it: take that out"),
    ("ups", "", "desc = x", "2: setting outside of a section: desc"),
    ("ups", "", "[a/b]", "3: bad name: [a/b]"),
    ("ups", "[a]\n", "[a]", "4: duplicate: [a]"),
    ("ups", "[a]\n", f"socket = {101 * 'x'}", "6: bad value: socket"),
    ("users", "[a]\n", 'password="secret"', f"1: malformed line: password: {KEY}"),
    ("users", "[a]\n", "password secret", f"1: malformed line: password: {KEY}"),
    ("users", "[a]\n", "pasword = secret", "5: unknown key: pasword"),
    ("users", "[a]\n", 'password = ""', "6: bad value: password"),
    ("users", "[a]\n", "actions = SETT", "6: bad value: actions"),
    ("vars", "", "VARDESC a b c", "1: malformed line: VARDESC a b c: write VARDESC or CMDDESC, a name, and a text in quotes"),
    ("vars", "", 'VARDESC a/b "text"', '3: bad name: VARDESC a/b \\"text\\"'),
]  # fmt: skip


def remarked_so(option, before, line, remark):
    path = BENCH.file("refused", (before + line).encode() + b"\n")
    fault = f"upsd: {path}:{before.count(chr(10)) + 1}: cause {remark[0]}\nupsd: cause {remark}\n"
    BENCH.faults_of_words(1, fault.encode(), "replay", f"--{option}", path, "/dev/null")


for rows in sorted(glob.glob(f"{HERE}/answers/*.rows")):
    BENCH.case(os.path.basename(rows), each, tables(rows), table_case)
for path in sorted(glob.glob(f"{HERE}/scripts/*.cases")):
    BENCH.case(os.path.basename(path), each, cases(path), script_case)
BENCH.case("bad_lines", bad_lines)
BENCH.case("other_words", other_words)
BENCH.case("files and their faults", each, ENDS, ends_so)
BENCH.case("what is said of a refused line", each, REMARKS, remarked_so)
BENCH.end()
