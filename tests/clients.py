#!/usr/bin/env python3
"""What a client sends and prints, whatever its words, and the pieces in which the reply comes, wherever it is cut,
however little the server or the output takes (narrow.c), and where the server says no more. A line a case, with its rows.
"""
import concurrent.futures
import contextlib
import os
import re
import shlex
import signal
import socket
import struct
import subprocess
import time
from typing import NamedTuple

import serving
from replaying import HERE, Bench, built, plain, sections, terminal_ends, text_of, written_to

PROGRAMS = {os.path.basename(program): program for program in built("upsc", "upsrw", "upscmd")}
BENCH = Bench("clients", PROGRAMS["upsc"])
PATIENCE = 60 * serving.SLOWER  # seconds
NARROW = BENCH.library("narrow.c")
LED = BENCH.file("led", b"")

READ, WRITE, EARLY, BAD = "read failed", "write failed", "reply ended early", "bad reply"
ARGUMENT = "bad argument"
# Why, as the second line of a fault says it. Names are looked up as this address, and connections are led away from it.
SERVER = "127.0.0.1:3493"
UNHEARD = "closed before any answer: the server is full, or not running behind a proxy"
SENT_AWAY, CLOSED = f"{SERVER}: {UNHEARD}", f"{SERVER}: the server closed the connection"
NO_REPLY, NO_ANSWER = f"{SERVER}: no reply of a UPS server came", f"{SERVER}: no answer in 5 seconds"
RESET, PIPE = f"{SERVER}: Connection reset by peer", f"{SERVER}: Broken pipe"
LOOK = "the order may have been given: look before you try again"
VALUE, ITEMS = 512, 65_536  # the longest value and listing
ENDS, FAILS, STAYS = "the server ends", "its connection is reset", "it waits for more"
PAUSES = "it waits, once the client was stopped and went on"

LIST = ("upsc", "su")
LISTED = b'BEGIN LIST VAR su\nVAR su a "1"\nVAR su b "2 \\"x\\\\"\nEND LIST VAR su\n'
PRINTED = b'a: 1\nb: 2 "x\\\n'
ASKED = b"LIST VAR su\n"
SET = ("upsrw", "-s", "ups.delay=30", "-u", "admin", "-p", "s3 cret", "su@localhost:3494")
ID = "1bd31808-cb49-4aec-9d75-d056e6f018d2"


class Row(NamedTuple):
    """The words, what the server sends at once, what it is sent, and what is printed, or the fault and why it came."""

    words: tuple
    reply: bytes
    sent: bytes
    printed: bytes = b""
    fault: str = ""
    why: str = ""
    ending: str = ENDS
    narrow: dict = {}
    closed: tuple = ()


class Peer:
    """The server that every connection is led to."""

    def __init__(self):
        self.listener = socket.create_server(("127.0.0.1", 0))
        self.listener.settimeout(PATIENCE)
        self.port = self.listener.getsockname()[1]

    def meet(self, reply, ending, child):
        """Sends the reply to the next client, and ends so. The answer is all that the client sent."""
        with self.listener.accept()[0] as wire:
            wire.settimeout(PATIENCE)
            if ending == PAUSES:
                pause(child)
            if ending == FAILS:
                line = wire.makefile("rb").readline()
                wire.sendall(reply)
                wire.setsockopt(socket.SOL_SOCKET, socket.SO_LINGER, struct.pack("ii", 1, 0))
                return line
            with contextlib.suppress(OSError):  # a client that sends nothing may have ended
                wire.sendall(reply)
                if ending == ENDS:
                    wire.shutdown(socket.SHUT_WR)
            return all_of(wire)


PEER = Peer()


def pause(child):
    """The client waits for an answer, is stopped, and goes on."""
    time.sleep(0.3)
    child.send_signal(signal.SIGSTOP)
    time.sleep(0.3)
    child.send_signal(signal.SIGCONT)
    time.sleep(0.3)


def all_of(wire):
    """What comes until the client has ended, which resets the connection where it left something unread."""
    pieces = []
    with contextlib.suppress(ConnectionResetError):
        while piece := wire.recv(4096):
            pieces.append(piece)
    return b"".join(pieces)


def start(words, narrow, closed=(), stdout=subprocess.PIPE, stderr=subprocess.PIPE, more=("--explain",)):
    program, *rest = words
    # The pipe has room for all that is printed, which is read last.
    return subprocess.Popen(serving.closing(closed, [PROGRAMS[program], *more, *rest]), env={**os.environ, "LD_PRELOAD": NARROW, "LED": LED, **narrow},
                            stdin=subprocess.DEVNULL, stdout=stdout, stderr=stderr, pipesize=1 << 20)  # fmt: skip


def reported(words, *lines):
    """The lines that are there, after the program's name."""
    return "".join(f"{words[0]}: {line}\n" for line in lines if line).encode()


def check_end(words, child, status, fault, why):
    """The program ends by this status, and reports only this fault, and why it came."""
    printed, faults = child.communicate(timeout=PATIENCE)
    got = (printed or b"", faults, child.returncode)
    assert got == (b"", reported(words, fault, why), status), f"{words}: {got}"


def meet(row, peer=PEER):
    """What the row's client sent and printed, its fault, and its status."""
    child = start(row.words, {"LEAD_TO": str(peer.port), **row.narrow}, row.closed)
    try:
        sent = peer.meet(row.reply, row.ending, child)
        printed, faults = child.communicate(timeout=PATIENCE)
    except (TimeoutError, subprocess.TimeoutExpired) as error:
        raise AssertionError(f"{str(row)[:400]}: {error}") from None
    finally:
        child.kill()
        child.wait()
    return sent, printed, faults, child.returncode


def wanted(row):
    """What its client is to have sent and printed, its fault, and its status."""
    faults = b"" if 2 in row.closed else reported(row.words, row.fault, row.why)
    return row.sent, b"" if 1 in row.closed else row.printed, faults, 1 if row.fault else 0


def check(rows):
    """Each row is so."""
    count = 0
    for row in rows:
        got = meet(row)
        assert got == wanted(row), f"{row}: {got}"
        count += 1
    return f"{count} rows"


# What the programs' words ask for.


def rows(title, ending=ENDS):
    """The rows of scripts/clients.rows below this title: WORDS|REPLY|SENT|PRINTED|FAULT|WHY, `$` for an LF."""
    for row in sections("scripts/clients.rows")[title]:
        words, *texts, fault, why = f"{row}|||||".split("|")[:6]
        yield Row(tuple(shlex.split(words)), *(plain(text).replace("$", "\n").encode() for text in texts), fault, why, ending)


def asked_for():
    return rows("what the words ask for")


def in_pieces():
    """Words and replies in pieces of every size."""
    for row in asked_for():
        for step in range(1, len(row.reply) + 1):
            yield row._replace(narrow={"STEP": str(step)})


def values():
    """An order has a value or none; a setting is cut at its first equals sign. The longest value is printed and sent."""
    command = ("upscmd", "-u", "admin", "-p", "pw", "su", "a")
    login = b'USERNAME "admin"\nPASSWORD "pw"\n'
    yield Row(command, b"OK\n" * 3, login + b"INSTCMD su a\n", b"OK\n")
    yield Row((*command, "1 0"), b"OK\n" * 3, login + b'INSTCMD su a "1 0"\n', b"OK\n")
    for setting, line in [("a=", b'SET VAR su a ""\n'), ("a=b=c", b'SET VAR su a "b=c"\n')]:
        words = ("upsrw", "-s", setting, "-u", "u", "-p", "p", "su")
        yield Row(words, b"OK\n" * 3, b'USERNAME "u"\nPASSWORD "p"\n' + line, b"OK\n")
    yield from passwords()
    for value, spelled in [(b"v" * VALUE, b"v" * VALUE), (b'"' * VALUE, b'\\"' * VALUE)]:
        yield Row(("upsc", "su", "a"), b'VAR su a "%s"\n' % spelled, b"GET VAR su a\n", value + b"\n")
        words = ("upsrw", "-s", b"a=" + value, "-u", "u", "-p", "p", "su")
        yield Row(words, b"OK\n" * 3, b'USERNAME "u"\nPASSWORD "p"\nSET VAR su a "%s"\n' % spelled, b"OK\n")


def passwords():
    """A password comes from a file, with or without its LF, with an equals sign or a blank before the name."""
    for content, sent in [(b"s3 cret\n", b"s3 cret"), (b"-p", b"-p"), (b"=x", b"=x"), (b"w" * 256 + b"\n", b"w" * 256)]:
        path = BENCH.file("password", content)
        login = b'USERNAME "admin"\nPASSWORD "%s"\n' % sent
        yield Row(("upsrw", "-s", "a=b", "-u", "admin", "--password-file", path, "su"), b"OK\n" * 3, login + b'SET VAR su a "b"\n', b"OK\n")
        yield Row(("upscmd", f"--password-file={path}", "-u", "admin", "su", "a"), b"OK\n" * 3, login + b"INSTCMD su a\n", b"OK\n")


def no_passwords(words):
    """A file that can't be read is named, and one that isn't a password is a bad argument. No server is looked for."""
    BENCH.file("led", b"")
    unread = [(f"{LED}-absent", "No such file or directory"), (BENCH.folder.name, "Is a directory"),
              (BENCH.file("binary", b"\xff\n"), "stream did not contain valid UTF-8")]  # fmt: skip
    for content in b"", b"\n", b"two\nlines\n", b"with CR\r\n", b"w" * 257, b"w" * 1000:
        check_end(words, start((*words, "--password-file", BENCH.file("password", content)), {"LEAD_TO": "1"}), 2, ARGUMENT, PASSWORD)
    for path, why in unread:
        check_end(words, start((*words, "--password-file", path), {"LEAD_TO": "1"}), 2, f"{path}: {why}", "")
    assert os.path.getsize(LED) == 0, "a server was looked for"
    return f"{6 + len(unread)} files"


def longest_listings():
    """One of as many items as a client reads, and one with one more."""
    for count, fault, why in [(ITEMS, "", ""), (ITEMS + 1, BAD, NO_REPLY)]:
        items = b"".join(b'VAR su v%d ""\n' % number for number in range(count))
        printed = b"" if fault else b"".join(b"v%d: \n" % number for number in range(count))
        yield Row(LIST, b"BEGIN LIST VAR su\n" + items + b"END LIST VAR su\n", ASKED, printed, fault, why)


def check_led(rows, narrow):
    """Lawful words lead to their server, by what is looked up and connected to, and each line is sent at once."""
    for ups, led in rows:
        BENCH.file("led", b"")
        check([Row(("upsc", ups), LISTED, ASKED, PRINTED, narrow=narrow)])
        with open(LED, encoding="utf-8") as file:
            got = file.read().splitlines()
        assert got == [*led, "send without delay"], f"{ups}: {got}"
    return f"{len(rows)} rows"


SERVERS = [
    ("su", ["look up localhost", "connect 127.0.0.1:3493"]),
    ("su@localhost", ["look up localhost", "connect 127.0.0.1:3493"]),
    ("su@192.0.2.1:65535", ["connect 192.0.2.1:65535"]),
    ("su@a-b.c:1", ["look up a-b.c", "connect 127.0.0.1:1"]),
]
REFUSING = "127.0.0.2"
TWO_ADDRESSES = [("su", ["look up localhost", f"connect {REFUSING}:3493", "connect 127.0.0.1:3493"])]

USER = ("-u", "u", "-p", "p", "su")
# Words, by what is wrong with them.
NAME, HOST = "not 1 to 64 letters, digits, . - _", "not 1 to 255 letters, digits, . and -"
PORT, IPV6 = "not 1 to 65535 without leading zeros", "an IPv6 address needs a host name, as /etc/hosts gives one"
NO_ID, SETTING = "not one that --track printed", "not a name, = and a value of at most 512 bytes"
BYTES = "not {} bytes, none of them a control character"
PASSWORD = f"PASS: {BYTES.format('1 to 256')}"
LONG = "v" * (VALUE + 1)
UNLAWFUL = {
    "UPS: not 1 to 32 letters, digits, . - _": [("upsc", "")],
    "UPS bad name: not 1 to 32 letters, digits, . - _": [("upsc", "bad name"), ("upsc", "bad name@host:0"), ("upscmd", "-l", "bad name@a b")],
    "UPS b\\xc3\\xa4y\\x1b: not 1 to 32 letters, digits, . - _": [("upsc", "bäy\x1b")],
    f"host: {HOST}": [("upsc", "su@")],
    f"host ho_st: {HOST}": [("upsc", "su@ho_st"), ("upsc", "su@ho_st:1"), ("upsc", "-l", "ho_st"), ("upsc", "-L", "ho_st:x")],
    f"port 99999: {PORT}": [("upsc", "su@host:99999")],
    f"port 0: {PORT}": [("upsrw", "su@host:0")],
    f"port 03493: {PORT}": [("upscmd", "-l", "su@host:03493")],
    f"port: {PORT}": [("upsc", "su@host:")],
    f"port x: {PORT}": [("upsc", "-L", "host:x")],
    f"address ::1: {IPV6}": [("upsc", "su@::1")],
    f"address [::1]:3493: {IPV6}": [("upsc", "su@[::1]:3493"), ("upsc", "-l", "[::1]:3493")],
    f"address fe80::1%eth0: {IPV6}": [("upscmd", "-l", "su@fe80::1%eth0"), ("upsc", "-L", "fe80::1%eth0")],
    f"VAR a/b: {NAME}": [("upsc", "su", "a/b")],
    f"CMD load/off: {NAME}": [("upscmd", *USER, "load/off")],
    f"ID {ID[:-1]}: {NO_ID}": [("upsc", "--tracked", ID[:-1], "su")],
    f"ID {{{ID}}}: {NO_ID}": [("upsc", "--tracked", "{" + ID + "}", "su")],
    f"VAR=VALUE a: {SETTING}": [("upsrw", "-s", "a", *USER)],
    f"VAR=VALUE a={LONG[:98]}: {SETTING}": [("upsrw", "-s", f"a={LONG}", *USER)],
    f"VALUE \\n: {BYTES.format('at most 512')}": [("upscmd", *USER, "a", "\n")],
    f"VALUE {LONG[:100]}: {BYTES.format('at most 512')}": [("upscmd", *USER, "a", LONG)],
    f"USER: {BYTES.format('1 to 64')}": [("upscmd", "-u", "", "-p", "p", "su", "a")],
    f"USER {'u' * 65}: {BYTES.format('1 to 64')}": [("upscmd", "-u", "u" * 65, "-p", "p", "su", "a")],
    PASSWORD: [("upsrw", "-s", "a=b", "-u", "u", "-p", word, "su") for word in ("", "\x1b[31m")],
    "words: not UPS [VAR], -l|-L [HOST], -c|--attached UPS or --tracked ID UPS":
        [("upsc", *words.split()) for words in ("", "-c", "-l -L", "-l localhost ups.status", "--attached", "--attached -c su", "--attached su ups.status",
                                                *(f"--tracked {ID}{more}" for more in ("", " -l", " -c su", " --attached su", " su ups.status")))],
    "words: not UPS or -s VAR=VALUE -u USER -p PASS|--password-file FILE [--track] UPS":
        [("upsrw", *words.split()) for words in ("-s ups.delay=30 su", "-u admin su", "--track su", f"--password-file {LED} su",
                                                 f"-s a=b -u admin --password-file {LED} --password-file=led su")],
    "words: not -l UPS or -u USER -p PASS|--password-file FILE [--track] UPS CMD [VALUE]":
        [("upscmd", *words.split()) for words in ("su load.off", "-l su load.off", "--track -l su", "--track -u admin -p pw su", "-u admin -p pw su")],
}  # fmt: skip


def check_unlawful(wrong):
    """Each of these words is a bad argument, and no server is looked for."""
    BENCH.file("led", b"")
    rows = [(words, rule) for rule, every in wrong.items() for words in every]
    for words, rule in rows:
        check_end(words, start(words, {"LEAD_TO": "1"}), 2, ARGUMENT, rule)
        assert os.path.getsize(LED) == 0, f"{words}: a server was looked for"
    return f"{len(rows)} rows"


WRONG_WORDS = {
    "upsc": ["su ups.status more", "--password-file led su", "--tracked"],
    "upsrw": ["", "-s a=b -u admin su --password-file", f"-s a=b -u admin -p pw --password-file {LED} su"],
    "upscmd": ["", "-l su -u"],
}


def other_words():
    """Words that a program doesn't take, and the help."""
    for name, program in PROGRAMS.items():
        for words in ["--nope", *WRONG_WORDS[name]]:
            BENCH.refuses_words(*words.split(), program=program)
        BENCH.prints_help([f"Usage: {name} "], "--help", program=program)


# Replies and outputs that are cut, refused or full.


def cut_replies():
    """Nothing is printed."""
    for count in range(len(LISTED)):
        yield Row(LIST, LISTED[:count], ASKED, fault=EARLY, why=CLOSED if count else SENT_AWAY)
        yield Row(LIST, LISTED[:count], ASKED, fault=READ, why=RESET if count else SENT_AWAY, ending=FAILS)


def bad_replies():
    """Each is a fault at once, though the server could still send more. Which ones fit is what the contracts say; here are some
    of each kind."""
    for row in rows("bad replies"):
        yield row
        yield row._replace(ending=STAYS)


def more_after_a_reply():
    """It isn't looked at, and not waited for."""
    yield Row(("upsc", "su", "a"), b'VAR su a "1"\nVAR su a "2"\n', b"GET VAR su a\n", b"1\n")
    yield Row(LIST, LISTED + b"x", ASKED, PRINTED, ending=STAYS)


def servers_that_take_less():
    """It is a fault. An order whose line isn't taken whole isn't given."""
    lines = b'USERNAME "admin"\nPASSWORD "s3 cret"\nSET VAR su ups.delay "30"\n'
    room = len(lines) - 1
    yield Row(SET, b"OK\nOK\n", lines[:room], fault=WRITE, why=PIPE.replace("3493", "3494"), narrow={"SEND_ROOM": str(room)})
    for room in range(len(ASKED)):
        yield Row(LIST, LISTED, ASKED[:room], fault=WRITE, why=PIPE, narrow={"STEP": "1", "SEND_ROOM": str(room)})


def outputs_that_take_less():
    """They hold a beginning."""
    for room in range(len(PRINTED)):
        yield Row(LIST, LISTED, ASKED, PRINTED[:room], fault=WRITE, narrow={"STEP": "1", "WRITE_ROOM": str(room)})
    for row in asked_for():
        why = LOOK if row.words[0] != "upsc" and "-u" in row.words else ""
        yield row._replace(printed=b"", fault=WRITE, why=why, narrow={"WRITE_ROOM": "0"})
    # A listing without items prints nothing, which fits.
    yield Row(LIST, b"BEGIN LIST VAR su\nEND LIST VAR su\n", ASKED, narrow={"WRITE_ROOM": "0"})


DENIED = "the user or the password is wrong, or the user may not do this"


def closed_streams():
    """What would be printed goes nowhere, and not to the server."""
    refused = Row(SET, b"OK\nERR ACCESS-DENIED\n", b'USERNAME "admin"\nPASSWORD "s3 cret"\n', fault="server answered ERR ACCESS-DENIED", why=f"su ups.delay: {DENIED}")
    listed = Row(("upscmd", "-l", "su"), b"BEGIN LIST CMD su\nCMD su a\nEND LIST CMD su\n", b"LIST CMD su\n", b"a\n")
    for row in Row(LIST, LISTED, ASKED, PRINTED), refused, listed:
        yield from (row._replace(closed=streams) for streams in serving.CLOSED)


SHOWN = [(b"a\tb\x9b31m", rb"a\tb\x9b31m"), (b"\xc2\x9b31m\xc2\x85", rb"\xc2\x9b31m\xc2\x85"), (b"\xe0\x82\x9b\xff\xc3", rb"\xe0\x82\x9b\xff\xc3"),
         *[("ÄÖÜß é Û € 𝄞 [31m '".encode(),) * 2]]  # fmt: skip


def check_terminal(rows):
    """A terminal is sent no control character and no byte that isn't UTF-8; a pipe is sent each byte."""
    for value, shown in rows:
        row = Row(("upsc", "su", "a"), b'VAR su a "%s"\n' % value, b"GET VAR su a\n", value + b"\n")
        check([row])
        reading, terminal = terminal_ends()
        child = start(row.words, {"LEAD_TO": str(PEER.port)}, stdout=terminal)
        assert PEER.meet(row.reply, row.ending, child) == row.sent
        assert (child.wait(60), got := written_to(reading, terminal)) == (0, shown + b"\n"), got
    return f"{len(rows)} rows"


# Servers that say nothing, or no more.

WAIT, SLACK = 5.0, 3.0


def is_waited(began):
    """Since then the longest wait has passed, and little more."""
    return WAIT <= time.monotonic() - began < WAIT + SLACK


def check_waits(rows):
    """Each client gives up by itself after the longest wait. They wait beside one another, for a server each."""

    def waited(row):
        began = time.monotonic()
        got = meet(row, Peer())
        assert got == wanted(row) and is_waited(began), f"{row}: {got} after {time.monotonic() - began:.1f} s"

    with concurrent.futures.ThreadPoolExecutor(len(rows)) as pool:
        list(pool.map(waited, rows))
    return f"{len(rows)} rows"


def check_full_output(words):
    """The system says why it takes no output."""
    with open("/dev/full", "wb") as full:
        child = start(words, {"LEAD_TO": str(PEER.port)}, stdout=full)
        assert PEER.meet(LISTED, ENDS, child) == ASKED
        check_end(words, child, 1, WRITE, "standard output: No space left on device")


def check_unreached(programs):
    """A port that refuses; a host that isn't found; and a listener without room for one more, where the system answers no
    connection, and each client gives up."""
    connect = "cannot connect"
    for words in programs:
        check_end(words, start(words, {"LEAD_TO": "1"}), 1, connect, f"{words_server(words)}: Connection refused")
    nowhere = "no-such-host.invalid"
    child = subprocess.Popen([PROGRAMS["upsc"], "--explain", f"su@{nowhere}"], stdout=subprocess.PIPE, stderr=subprocess.PIPE)
    printed, faults = child.communicate(timeout=PATIENCE)
    begun = reported(("upsc",), connect) + f"upsc: {nowhere}: ".encode()
    assert (printed, child.returncode, faults.startswith(begun), faults.count(b"\n")) == (b"", 1, True, 2), faults
    assert b"lookup" not in faults, faults  # the system's words alone
    listener = socket.socket()
    listener.bind(("127.0.0.1", 0))
    listener.listen(0)
    port = listener.getsockname()[1]
    with contextlib.ExitStack() as held:
        held.enter_context(listener)
        for _ in range(4):
            filler = held.enter_context(socket.socket())
            filler.setblocking(False)
            filler.connect_ex(("127.0.0.1", port))
        began = time.monotonic()
        children = [start(words, {"LEAD_TO": str(port)}) for words in programs]
        for words, child in zip(programs, children):
            check_end(words, child, 1, connect, f"{words_server(words)}: no answer in 5 seconds")
            assert is_waited(began), f"{words}: after {time.monotonic() - began:.1f} s"
    return f"{len(programs)} rows"


def words_server(words):
    """The address of the server that the words name."""
    return SERVER.replace("3493", "3494") if words == SET else SERVER


# Where a fault is explained.


def explained():
    """Faults of each kind: what the server sends, if it is met, the fault, and the line that explains it."""
    for words in LIST, SET, ("upscmd", "-l", "su"):
        yield words, None, "cannot connect", f"{words_server(words)}: Connection refused"
        yield words, b"ERR ACCESS-DENIED\n", "server answered ERR ACCESS-DENIED", f"{'su ups.delay' if words == SET else 'su'}: {DENIED}"
        yield words, b"", EARLY, f"{words_server(words)}: {UNHEARD}"
        yield words, b"\n", BAD, f"{words_server(words)}: no reply of a UPS server came"
        yield (words[0], *USER[:-1], "a b", "c") if words[0] == "upscmd" else (*words[:-1], "a b"), None, ARGUMENT, "UPS a b: not 1 to 32 letters, digits, . - _"
    yield ("upsc", b"su\xff"), None, ARGUMENT, "a word is not UTF-8"


def check_explained(rows):
    """A program that reads standard error gets each fault as one line; a person at a terminal gets the one that explains it, too."""
    rows = list(rows)
    for words, reply, fault, why in rows:
        for ends, lines in (os.pipe, [fault]), (terminal_ends, [fault, why]):
            reading, writing = ends()
            child = start(words, {"LEAD_TO": str(PEER.port if reply is not None else 1)}, stderr=writing, more=())
            if reply is not None:
                PEER.meet(reply, ENDS, child)
            child.communicate(timeout=PATIENCE)
            assert (got := written_to(reading, writing)) == reported(words, *lines), f"{words}: {got}"
    return f"{len(rows)} faults"


# What each word of a refusal means.


def check_meanings():
    """Each word that our server refuses by has a meaning."""
    path = f"{HERE}/../crates/nutcommand/src/err_word.rt"
    words = set(re.findall(r'b"ERR ([A-Z-]+)\\n",$', text_of(path), re.M)) - {"ALREADY-LOGGED-IN"}
    for word in words:
        row = Row(LIST, f"ERR {word}\n".encode(), ASKED, fault=f"server answered ERR {word}")
        sent, printed, faults, status = meet(row)
        first, _, why = faults.decode().partition("\n")
        assert (sent, printed, first, status) == (ASKED, b"", f"upsc: {row.fault}", 1), (row, faults)
        assert why.startswith("upsc: su: the ") and "RFC" not in why and why.count("\n") == 1, (word, why)
    return f"{len(words)} words"


def main():
    for case in in_pieces, values, longest_listings, cut_replies, bad_replies, more_after_a_reply, servers_that_take_less, outputs_that_take_less, closed_streams:
        BENCH.case(case.__name__.replace("_", " "), check, case())
    BENCH.case("lawful words lead to their server", check_led, SERVERS, {})
    BENCH.case("an address that refuses isn't the last", check_led, TWO_ADDRESSES, {"REFUSING": REFUSING})
    BENCH.case("unlawful words are bad arguments", check_unlawful, UNLAWFUL)
    BENCH.case("other words and the help", other_words)
    BENCH.case("faults are one line, and two on a terminal", check_explained, explained())
    BENCH.case("files without a password", no_passwords, ("upsrw", "-s", "a=b", "-u", "admin", "su"))
    BENCH.case("each word of a refusal has a meaning", check_meanings)
    BENCH.case("a full output", check_full_output, LIST)
    BENCH.case("nothing is sent after a refusal", check, rows("a reply that ends the job"))
    BENCH.case("a terminal is sent no control character", check_terminal, SHOWN)
    BENCH.case("clients that are stopped go on", check, [Row(LIST, LISTED, ASKED, PRINTED, ending=PAUSES)])
    silent = list(rows("servers that say nothing, or no more", STAYS))
    takes_nothing = Row(LIST, b"", b"", fault=WRITE, why=NO_ANSWER, ending=STAYS, narrow={"WRITABLE": "1"})
    BENCH.case("a server that says no more, or takes nothing, is waited for 5 s", check_waits, [*silent, silent[0]._replace(ending=PAUSES), takes_nothing])
    BENCH.case("a server that takes no connection, too", check_unreached, [LIST, SET, ("upscmd", "-l", "su")])
    BENCH.end()


main()
