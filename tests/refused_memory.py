#!/usr/bin/env python3
"""Each request for memory refused in turn (refuse.c), over the built programs.

A run in which the Nth request is refused, for every N up to a run that makes fewer: of each the whole right output comes, or
a fault is reported and nothing else is said that isn't so. Where a run makes more than 2,000 requests, each of the first 300 is
refused, and then every 50th.
"""
import contextlib
import mmap
import os
import re
import subprocess

from plain_server import Replay, Server
from replaying import Bench, built, cases, written
from serving import comes, served, taken

UPSD, UPSC, UPSRW, UPSCMD, DATATESTS = built("upsd", "upsc", "upsrw", "upscmd", "datatests")
BENCH = Bench("refused_memory", UPSD)
FOLDER = BENCH.folder.name
CASES = list(cases("scripts/refused.cases"))
FILES = next(files for title, _, files in CASES if title == "three files")
EVERY, EACH, STEP = 2000, 300, 50
ALL = 2**64 - 1


class Control:
    """What the library is given, and what it counts: the four numbers of refuse.c."""

    def __init__(self):
        with open(BENCH.file("control", bytes(32)), "r+b") as file:
            self.words = memoryview(mmap.mmap(file.fileno(), 32)).cast("Q")

    def refuse(self, first, last):
        self.words[0], self.words[1], self.words[2], self.words[3] = 0, first, last, 0

    def refuse_all(self):
        self.words[2], self.words[1] = ALL, 1

    requests = property(lambda self: self.words[0])
    refused = property(lambda self: self.words[3])


CONTROL = Control()
REFUSING = {**os.environ, "LD_PRELOAD": BENCH.library("refuse.c"), "REFUSE": os.path.join(FOLDER, "control")}


def run(words):
    return BENCH.ends(*words[1:], program=words[0], env=REFUSING)


def turns(total):
    """Which requests are refused: each one; of very many each of the first, and then some."""
    some = range(1, total + 1) if total <= EVERY else [*range(1, EACH + 1), *range(EACH + STEP, total + 1, STEP)]
    return [*some, total + 1]


def in_turn(words, want, judge):
    """Refuses each request of the program in turn, alone and with all after it. Returns how many there are, and how often which fault was
    reported where only one was refused."""
    CONTROL.refuse(0, 0)
    got = run(words)
    assert got == (0, want, b""), got
    total, seen = CONTROL.requests, {}
    assert total > 0, "no request was counted"
    for request in turns(total):
        CONTROL.refuse(request, request)
        got = run(words)
        assert (CONTROL.refused == 1) == (request <= total), f"request {request} of {total}: {CONTROL.refused} refused"
        kind = "whole" if got == (0, want, b"") else judge(got)
        assert kind and (CONTROL.refused or kind == "whole"), f"request {request} of {total}: {got}"
        seen[kind] = seen.get(kind, 0) + 1
        CONTROL.refuse(request, ALL)
        got = run(words)
        assert got == (0, want, b"") or judge(got) not in (None, "refused 8"), f"from request {request} on: {got}"
    seen["whole"] -= 1
    return f"{total} requests: {', '.join(f'{count} {kind}' for kind, count in sorted(seen.items()) if count)}"


def every_request_is_counted():
    """No program asks for memory by another call than those that the library counts."""
    symbols = subprocess.run(["nm", "-D", "--undefined-only", UPSD, UPSC, UPSRW, UPSCMD], capture_output=True, text=True, check=True).stdout
    calls = set(re.findall(r"\w*(?:alloc|memalign|map|brk)\w*", symbols))
    assert calls == {"malloc", "realloc"}, calls


def replay_in_turn(script, files):
    """A fault ends the program, with nothing printed; or an event is refused by 8, and then all that follows from it is printed."""

    def judge(got):
        if got == (1, b"", b"upsd: no memory\n"):
            return "no memory"
        status, printed, faults = got
        said = re.findall(rb"^line (\d+): refused 8$", printed, re.MULTILINE)
        if (status, faults, len(said)) != (0, b"", 1):
            return None
        events = ((int(said[0]), place) for place in range(4))
        is_so = any(Replay(Server(**files), event, after).output(script) == printed for event in events for after in range(8))
        return "refused 8" if is_so else None

    words = [UPSD, "replay", BENCH.file("script", script), *BENCH.options(files)]
    return in_turn(words, Replay(Server(**files)).output(script), judge)


# Clients.

def client_in_turn(program, want, *words):
    """Each request of the client refused in turn: it prints all, or reports a fault and prints nothing. An order may be given by then."""
    name = os.path.basename(program)
    fault, given = f"{name}: no memory\n", f"{name}: the order may have been given: look before you try again\n"
    faults = {fault.encode(), (fault + given * ("-u" in words)).encode()}
    return in_turn([program, "--explain", *words], want, lambda got: "no memory" if got[:2] == (1, b"") and got[2] in faults else None)


def client_cases(folder):
    BENCH.file("users", FILES["users"])
    with served(folder, UPSD, b'SETINFO a "1"\nSETFLAGS a RW\nSETINFO ups.status "OL"\nADDCMD test.start\n') as (server, _, good):
        assert good.ask(b"USERNAME mon\nPASSWORD pw\nLOGIN su\n") == b"OK\n" * 3
        at = f"127.0.0.1:{server.port}"
        su, user = f"su@{at}", ("-u", "admin", "-p", "s3 cret")
        for name, program, want, *words in [
                ("variables", UPSC, b"a: 1\nups.status: OL\n", su), ("variable", UPSC, b"OL\n", su, "ups.status"),
                ("names", UPSC, b"su\n", "-l", at), ("descriptions", UPSC, b"su: Rack 1\n", "-L", at), ("clients", UPSC, b"127.0.0.1\n", "-c", su),
                ("variables", UPSRW, b"a=1\n", su), ("sets", UPSRW, b"OK\n", "-s", "a=1", *user, su),
                ("commands", UPSCMD, b"test.start\n", "-l", su), ("starts", UPSCMD, b"OK\n", *user, su, "test.start")]:  # fmt: skip
            BENCH.case(f"{os.path.basename(program)}: {name}", client_in_turn, program, want, *words)


# The server that serves.

MANY = 4096
STATUS = b'SETINFO ups.status "OL"\nSETFLAGS ups.status RW\nADDCMD test.start\n'
SERVED = b'VAR su ups.status "OL"\n'


@contextlib.contextmanager
def serving(reported):
    """The built server, with the driver of su and a client that is there before memory is refused."""
    CONTROL.refuse(0, 0)
    BENCH.file("users", FILES["users"])
    with served(FOLDER, UPSD, reported, env=REFUSING) as ends:
        assert CONTROL.requests > 0, "no request was counted"
        yield ends


def a_listing_asks_for_no_memory():
    """From its client's open on, every request is refused: `LIST VAR`, its first line, is accepted, and the listing comes whole."""
    value = b'"' + b'\\"' * 512 + b'"'
    items = [b"su %064d %b\n" % (number, value) for number in range(1, MANY)]
    want = b"BEGIN LIST VAR su\n" + b"".join(b"VAR " + item for item in items) + SERVED + b"END LIST VAR su\n"
    with serving(b"".join(item.replace(b"su", b"SETINFO", 1) for item in items) + STATUS) as (server, _, _):
        client = server.client(buffer=4096)
        assert server.client().ask(b"NETVER\n") == b"1.3\n"  # it came later, so both are open
        before = CONTROL.requests
        CONTROL.refuse_all()
        client.send(b"LIST VAR su\n")
        got = client.listing()
        assert got == want, f"{len(got)} bytes, not {len(want)}"
        assert (CONTROL.requests, CONTROL.refused) == (before, 0), f"{CONTROL.requests - before} requests"
        return f"{len(got)} bytes, no request"


def what_is_no_listing_asks_for_no_memory():
    """Every command but a listing is answered, and a short value is set: no request is made."""
    login = b'USERNAME admin\nPASSWORD "s3 cret"\n'
    commands = b"VER\nNETVER\nHELP\nGET VAR su ups.status\nGET TYPE su ups.status\nGET DESC su a\nGET CMDDESC su a\nGET UPSDESC su\n"
    commands += b"GET NUMLOGINS su\nLIST CLIENT su\nSET VAR su ups.status OB\nINSTCMD su test.start\nLIST VAR none\nWHAT\n\x01\n\n"
    with serving(STATUS) as (server, driver, client):
        other = server.client()
        other.ask(b"VER\n")
        before = CONTROL.requests
        CONTROL.refuse_all()
        assert client.ask(login + b"LOGIN su\nFSD su\n") == b"OK\nOK\nOK\nOK FSD-SET\n"
        got = b"".join(client.ask(commands, 17) for _ in range(50))
        assert got.count(b'VAR su ups.status "FSD OL"\n') == 50 and got.count(b"ERR UNKNOWN-UPS\n") == 50, got[-600:]
        assert [driver.order() for _ in range(100)] == [b'SET ups.status "OB"\n', b"INSTCMD test.start\n"] * 50
        driver.send(b'SETINFO ups.status "OB"\nPONG\nDATASTALE\n')
        assert comes(lambda: client.ask(b"GET VAR su ups.status\n") == b"ERR DATA-STALE\n")
        assert other.ask(b"LOGOUT\n") == b"OK Goodbye\n" and other.up_to_end() == b""
        assert (CONTROL.requests, CONTROL.refused) == (before, 0), f"{CONTROL.requests - before} requests"
        return "over 1,000 lines, no request"


def a_server_without_memory_goes_on():
    """LIST UPS stays held, and what was sent after it; both are answered at the next bytes once there is memory. A client that comes is
    closed without a word. A driver is lost; it is connected to again, and its data are right once it has reported them."""
    with serving(STATUS) as (server, driver, client):
        CONTROL.refuse_all()
        client.send(b"NETVER\nLIST UPS\nVER\n")
        assert client.line() == b"1.3\n" and taken(client.wire, None, 0.3) == b""
        other = server.client()
        assert other.up_to_end() == b""
        driver.send(b"SETINFO a 1\nSETINFO b 2\n")
        assert driver.line() == b"" and CONTROL.refused >= 3, CONTROL.refused
        lost = "upsd: su: driver lost\nupsd: drivers cut off, out of memory or by an endless line: 1\n"
        assert comes(lambda: lost in server.journal()), server.journal()
        CONTROL.refuse(0, 0)
        got = client.ask(b"NETVER\n", 5)
        assert got == b'BEGIN LIST UPS\nUPS su "Rack 1"\nEND LIST UPS\nNetwork UPS Tools upsd, profile 1\n1.3\n', got
        assert client.ask(b"GET VAR su a\n") in (b"ERR DRIVER-NOT-CONNECTED\n", b"ERR DATA-STALE\n")  # as it may be connected to again
        driver.lose()
        driver.accept(b"SETINFO a 1\n" + STATUS)
        again = server.client()
        assert comes(lambda: again.ask(b"GET VAR su a\n") == b'VAR su a "1"\n')
        come = "upsd: su: driver connected\nupsd: su: status OL\nupsd: su: data good\n"
        assert comes(lambda: server.journal() == come + lost + come), server.journal()


def starting():
    """Each request before it listens: it reports that there is no memory, or it listens."""
    words = [UPSD, "serve", *BENCH.options(FILES), "--listen", "127.0.0.1:0"]
    request, ended = 0, 0
    while True:
        request += 1
        CONTROL.refuse(request, request)
        child = subprocess.Popen(words, env=REFUSING, stdout=subprocess.PIPE, stderr=subprocess.PIPE)
        listens = child.stdout.readline().startswith(b"upsd: listening on 127.0.0.1:")
        if listens:
            child.terminate()
        _, faults = child.communicate(timeout=10)
        # What it warns of before isn't looked at.
        assert listens or (child.returncode, faults.splitlines()[-1]) == (1, b"upsd: no memory"), (request, child.returncode, faults)
        ended += not listens
        if listens and not CONTROL.refused:
            assert ended, "no request was refused"
            return f"{request - 1} requests: {ended} no memory"


def an_insert_asks_for_the_nodes_that_it_counts():
    """Into a map of 4,095 entries of which a version is shared, as datatests counts them: six nodes at least, and at most
    four requests more than nodes."""
    requests = []
    for row in (b"map_get 4095|", b"map_set 4095|"):  # each answers that there is none
        CONTROL.refuse(0, 0)
        printed = subprocess.run([DATATESTS], input=b"map 4095\nmap_share\nmap_made\n" + row + b"\nmap_made\n", env=REFUSING, capture_output=True, check=True).stdout
        requests.append(CONTROL.requests)
    before, after = (int(line.split(b" => ")[1]) for line in printed.splitlines() if line.startswith(b"map_made"))
    made, asked = after - before, requests[1] - requests[0]
    assert 6 <= made <= asked <= made + 4, (made, asked)
    return f"{asked} requests for {made} nodes"


for title, parts, files in CASES:
    BENCH.case(f"replay of {title}", replay_in_turn, written(parts["script"]), files)
client_cases(FOLDER)
BENCH.run(globals())
