#!/usr/bin/env python3
"""The built `upsd replay` and the plain server over 10,000 runs of random pieces from a client and a driver. A run is an `open`, pieces
in a random order, and a `close`; many runs are in one script, over one server, so that a run begins where another one left the UPS's
driver and the clock. Word: the seed, 1 unless given. And floods of each line, on real sockets."""
import contextlib
import os
import random
import sys
import time

from plain_server import LINE, QUEUE, VALUE, quoted
from replaying import Bench, built, cases
from serving import EMULATED, SLOWER, TWO, Driver, Server, comes, pouring

BENCH = Bench("hostile", *built("upsd"))
RUNS, IN_A_SCRIPT = 2_500 if EMULATED else 10_000, 250
FILES = next(files for title, _, files in cases("scripts/refused.cases") if title == "the files of the random pieces")

NAMES = [b"a", b"b", b"ups.status", b"test.start"] * 6 + [b"nope", b"A", b"x/y", b"", b"n" * 64, b"n" * 65]
VALUES = [b"1", b"OL", b"20", b"8", b"030", b"-5", b"s3 cret", b"pw", b"go", b'q"u\\o', b"", b"v" * VALUE, b"v" * (VALUE + 1), b"\xff\t "]
NUMBERS = [b"0", b"8", b"-5", b"600", b"08", b"1000000000", b"1000000001", b"-1000000000", b"x"]
UPS = [b"su"] * 9 + [b"bay", b"SU", b"none"]
OF_UPS = [[b"LIST VAR", b"LIST RW", b"LIST CMD", b"LIST CLIENT", b"GET NUMLOGINS", b"GET UPSDESC", b"LOGIN", b"PRIMARY", b"ATTACH", b"GET NUMATTACH"], UPS]
OF_NAME = [[b"GET VAR", b"GET TYPE", b"GET DESC", b"GET CMDDESC", b"LIST ENUM", b"LIST RANGE"], UPS, NAMES]
# The forms of a line: the words of which each place has one. The first ones of a client are its user and password.
USERS_GIVEN = [[(b"admin", b"s3 cret")] * 4 + [(b"mon", b"pw"), (b"starter", b"go"), (b"nobody", b"pw")]]
OF_CLIENT = [USERS_GIVEN, OF_UPS, OF_UPS, OF_NAME, OF_NAME, [[b"SET VAR"], UPS, NAMES, VALUES], [[b"INSTCMD"], UPS, NAMES], [[b"INSTCMD"], UPS, NAMES, VALUES],
             [[b"VER", b"NETVER", b"PROTVER", b"HELP", b"STARTTLS", b"LIST UPS", b"GET", b"LIST", b"WHAT", b"", b" \t"]],
             [[b"LOGOUT", b"DETACH", b"LIST VAR su", b"FSD bay", b"USERNAME a"]]]  # fmt: skip
OF_DRIVER = [[[b"SETINFO"], NAMES, VALUES]] * 2 + [
    [[b"ADDENUM", b"ADDENUM", b"DELENUM"], NAMES, VALUES], [[b"ADDRANGE", b"ADDRANGE", b"DELRANGE"], NAMES, NUMBERS, NUMBERS],
    [[b"SETFLAGS"], NAMES, [b"RW"]], [[b"SETFLAGS"], NAMES, [b"RW", b"rw"], [b"RW", b"STRING", b"NUMBER"]], [[b"SETAUX"], NAMES, NUMBERS],
    [[b"ADDCMD", b"ADDCMD", b"DELCMD", b"DELINFO"], NAMES], [[b"DUMPDONE\nDATAOK"]],
    [[b"DATASTALE", b"PONG", b"WHAT", b"", b"DUMPDONE", b"DATAOK", b"SETFLAGS a RW", b"SETFLAGS b RW BLUE"]]]  # fmt: skip
# The lines of the floods, the yardstick first.
FLOODS = [line + b"\n" for line in (
    b"GET VAR big v2048", b"GET VAR big nope", b"GET TYPE big v2048", b"GET DESC big v2048", b"GET CMDDESC big c1", b"GET UPSDESC big",
    b"GET NUMLOGINS big", b"GET TRACKING", b"GET TRACKING %036d" % 0, b"LIST UPS", b"LIST VAR big", b"LIST RW big", b"LIST CMD big",
    b"LIST ENUM big v2048", b"LIST ENUM big v0001", b"LIST RANGE big v2048", b"LIST CLIENT big", b"SET VAR big v2048 255", b"SET VAR big v0001 x",
    b"SET TRACKING ON", b"INSTCMD big c1", b"INSTCMD big x", b"LOGIN big", b"PRIMARY big", b"FSD big", b"FSD x", b"USERNAME x", b"PASSWORD x",
    b"HELP", b"VER", b"NETVER", b"STARTTLS", b"x", b"")]  # fmt: skip
MOMENT = 0.05  # in seconds


class Pieces:
    def __init__(self, seed):
        self.random = random.Random(seed)
        self.pick, self.chance = self.random.choice, self.random.random

    def word(self, word):
        """The word bare, in quotes, or with backslashes."""
        if self.chance() < 0.4 or not word or b" " in word or b"\t" in word:
            return quoted(word)
        return quoted(word)[1:-1] if self.chance() < 0.8 else b"".join(b"\\%c" % byte for byte in word)

    def spell(self, *words):
        """A line of these words; the first of them in any case."""
        words = [words[0].lower() if self.chance() < 0.2 else words[0], *(self.word(word) for word in words[1:])]
        blank = b" " if self.chance() < 0.9 else b" \t "
        return blank.join(words)

    def line(self, forms):
        form = self.pick(forms)
        if form is not USERS_GIVEN:
            return self.spell(*map(self.pick, form))
        user, password = self.pick(form[0])
        return self.spell(b"USERNAME", user) + b"\n" + self.spell(b"PASSWORD", password)

    def spoil(self, text):
        """The text with one thing wrong with it, at times."""
        at, kind = self.random.randrange(len(text) + 1), self.random.randrange(24)
        if kind == 0:
            return text[:at] + bytes([self.random.randrange(256)]) + text[at:]
        if kind == 1:
            return text[:at] + bytes([self.pick(b'"\\\n\r\t\x7f\x00 #')]) + text[at + 1 :]
        if kind == 2:
            return text[:at] + text[at + 1 :]
        if kind == 3 and self.chance() < 0.3:
            return text[:at] + bytes([self.pick(b"x \n")]) * self.random.randrange(LINE - 123, LINE + 77) + text[at:]
        if kind == 4:
            return self.random.randbytes(self.random.randrange(40))
        return text

    def stream(self, forms, count):
        return b"".join(self.spoil(self.line(forms) + b"\n") for _ in range(count))

    def cut(self, text):
        """The text in pieces; a good many are whole."""
        pieces = []
        while text:
            size = self.pick([1, 2, 7, 20, 60, 300, LINE + 1, 4000])
            pieces.append(text[:size])
            text = text[size:]
        return pieces

    def run(self, client, moment):
        """The lines of one run."""
        driver = self.stream(OF_DRIVER, self.random.randrange(16))
        driver = [b"driver-hex su " + piece.hex().encode() for piece in self.cut(driver)]
        front = self.stream([USERS_GIVEN], 1) if self.chance() < 0.6 else b""
        asks = front + self.stream(OF_CLIENT, self.random.randrange(14))
        asks = [b"client-hex %d " % client + piece.hex().encode() for piece in self.cut(asks)]
        events = [b"up su"] if self.chance() < 0.5 else []
        while driver or asks:
            first = driver if driver and (not asks or self.chance() < 0.6) else asks
            events.append(first.pop(0))
            events += self.between(client, moment)
        end = [b"took %d all" % client, b"driver-took su all", b"close %d" % client]
        return [b"open 192.0.2.%d" % (client % 250), *events, *end, *([b"down su"] if self.chance() < 0.05 else [])]

    def between(self, client, moment):
        if self.chance() < 0.6:
            return []
        count = self.pick([0, 1, 30, 100, 1000, QUEUE])
        kinds = [b"took %d all" % client, b"took %d all" % client, b"took %d %d" % (client, count), b"driver-took su all"]
        kinds += [b"driver-took su %d" % count, b"tick %d" % (moment + self.pick([0, 1, 5, 16])), b"up su"]
        return [self.pick(kinds)]

    def script(self):
        """The runs of one script, from a UPS that is ready."""
        runs = [b"up su", b"up bay", b"driver bay ADDCMD test.start", b"driver bay DUMPDONE", b"driver bay DATAOK"]
        runs += [b"driver su " + line for line in (b"SETINFO a 1", b"SETFLAGS a RW", b"SETINFO ups.status OL", b"DUMPDONE", b"DATAOK")]
        for client in range(1, IN_A_SCRIPT + 1):
            runs += self.run(client, client * 2)
        return b"".join(line + b"\n" for line in runs)


def random_pieces():
    seed = int((sys.argv[1:] or [1])[0])
    pieces = Pieces(seed)
    for _ in range(RUNS // IN_A_SCRIPT):
        BENCH.agrees(pieces.script(), **FILES)
    return f"{RUNS} runs, seed {seed}"


def worst_wait(server, drivers, line, count):
    """How long a good client waits at most while so many clients send the line without pause. No UPS's data go stale."""
    waits, open_before = [], server.descriptors()
    good, *clients = [server.client() for _ in range(1 + count)]
    for client in clients:
        client.ask(b"USERNAME admin\nPASSWORD pw\n")
    with pouring(clients, line * (LINE // len(line))):
        end = time.monotonic() + 0.05
        while len(waits) < 3 or time.monotonic() < end:
            for driver in drivers:
                driver.send(b"PONG\n")
            begun = time.monotonic()
            answers = good.ask(b"GET VAR su ups.status\nGET VAR big v0001\n")
            waits.append(time.monotonic() - begun)
            assert answers == b'VAR su ups.status "OL"\nVAR big v0001 "x"\n', (line, answers)
    for client in [good, *clients]:
        client.close()
    assert comes(lambda: server.descriptors() <= open_before)
    return max(waits)


def is_fair(server, drivers, line, count):
    """A good client waits no longer than a moment, or five times as long as beside a flood of GET VAR."""
    wait = worst_wait(server, drivers, line, count)
    return wait <= MOMENT * SLOWER or wait <= 5 * worst_wait(server, drivers, FLOODS[0], count)


def no_flood_of_a_line_keeps_a_good_client_waiting():
    """By 1 and by 40 clients. On a busy machine a wait is long at times, so each flood has three tries."""
    names = [b"SETINFO v%04d x\n" % number for number in range(4096)] + [b"ADDCMD c%d\n" % number for number in range(256)]
    values = [b"SETFLAGS v2048 RW\n", *(b"ADDENUM v2048 %d\n" % number for number in range(256))]
    users = BENCH.file("admin", b"[admin]\npassword = pw\nactions = SET\nactions = FSD\ninstcmds = ALL\nupsmon primary\n")
    with contextlib.ExitStack() as stack:
        drivers = [Driver(f"{BENCH.folder.name}/{ups}") for ups in ("su", "big")]
        list_of = "".join(f"[{os.path.basename(it.path)}]\nsocket = {it.path}\n" for it in drivers)
        server = Server(BENCH.program, BENCH.file("two", list_of.encode()), "--users", users, "--maxage", "3")
        for it in (*drivers, server):
            stack.callback(it.close)
        for driver, reported in zip(drivers, ([TWO], names + values)):
            driver.accept(b"".join(reported))
        good = server.client()
        assert comes(lambda: drivers[1].send(b"PONG\n") or good.ask(b"GET VAR big v0001\n").startswith(b"VAR"))
        unfair = [(line, count) for count in (1, 2 if EMULATED else 40) for line in FLOODS
                  if not any(is_fair(server, drivers, line, count) for _ in range(3))]  # fmt: skip
    assert not unfair, unfair
    return f"{len(FLOODS)} lines"


BENCH.run(globals())
