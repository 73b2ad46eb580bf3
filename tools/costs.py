#!/usr/bin/env python3
"""Measures what a request costs this server and NUT's, and prints the tables of docs/COSTS.md.

usage: tools/costs.py [--write] [speed | time | instructions | turns | memory | idle ..]     measures these, or all
       tools/costs.py --picture | --check                                                     measures nothing

--write puts the tables into docs/COSTS.md, with the machine and the commit, and draws the pictures anew. --picture draws them of the
tables that stand there: docs/costs.svg, and docs/costs-small.svg for README. --check ends with status 1 where they are others.

Measuring takes about 30 minutes on a machine that does nothing else, and needs the built upsd and crates/netbench (`rt run` in each),
NUT's upsd (Debian's nut-server) and valgrind. Speed is the median of rounds in which the servers take turns.
"""
import contextlib
import math
import os
import pathlib
import random
import re
import select
import signal
import socket
import statistics
import subprocess
import sys
import tempfile
import threading
import time

TOP = pathlib.Path(__file__).resolve().parent.parent
sys.path.insert(0, str(TOP / "tests"))
sys.dont_write_bytecode = True
os.environ["EMULATED"] = "20"  # under valgrind all takes as long as on another machine

from serving import Driver, OtherServer, pouring  # noqa: E402

UPSD, NETBENCH = f"{TOP}/crates/upsd/out/upsd", f"{TOP}/crates/netbench/out/netbench"
ROUNDS, SEED = 3, 20261127
SECONDS = 3  # that a row of the times takes a round
IDLE_MINUTES, ASKS_EACH = 3, 5  # seconds, as upsmon does
SIZES = {"small": (100, 10), "large": (4096, 256)}
HUGE = (32768, 10)
TOO_LONG = b"x" * 3000 + b"\n"
CALLGRIND = ["valgrind", "--tool=callgrind", "--callgrind-out-file=/dev/null"]
COMMANDS = {
    "ours": [UPSD, "serve", "--ups", "{folder}/upses.conf", "--users", "{folder}/upsd.users", "--listen", "127.0.0.1:{port}", "--maxage", "{max_age}"],
    "nut": ["/lib/nut/upsd", "-F", "-u", "root"],
}


def reports(count, width):
    """All variables of a driver in a shuffled order, with one value and with another."""
    names = random.Random(SEED).sample(range(count), count)
    return [b"".join(b'SETINFO v%04d "%s"\n' % (name, byte * width) for name in names) for byte in (b"x", b"y")]


@contextlib.contextmanager
def served(kind, sizes, valgrind=(), max_age=3600, users=0, missing=0):
    """Ours or NUT's server, and its drivers, each of which has reported variables of its size. So many users may do nothing, and of so
    many UPSs more the driver is missing."""
    with contextlib.ExitStack() as stack:
        folder = stack.enter_context(tempfile.TemporaryDirectory())
        drivers = {name: Driver(f"{folder}/dummy-ups-{name}") for name in sizes}
        with open(f"{folder}/upsd.users", "w", encoding="utf-8") as file:
            file.writelines(f"[u{number:05}]\npassword = x\n" for number in range(users))
        upses = [*sizes, *(f"missing{number}" for number in range(missing))]
        server = OtherServer([*valgrind, *COMMANDS[kind]], folder, dict.fromkeys(upses, ""), max_age)
        stack.callback(server.close)
        for name, driver in drivers.items():
            driver.accept(reports(*sizes[name])[0] + b'SETINFO ups.status "OL"\n')
            until(server, name)
        yield server, drivers


def until(server, ups, variable="ups.status", value=b"(?!WAIT)"):
    """Asks until the UPS has the variable, with this value. NUT's server answers before all is reported, by the status WAIT."""
    client = server.client()
    client.wire.settimeout(60)
    while not re.match(rb'VAR .* "' + value, client.ask(f"GET VAR {ups} {variable}\n".encode())):
        time.sleep(0.05)
    client.close()


def stop(server):
    server.process.send_signal(signal.SIGTERM)
    server.process.wait()


def instructions(kind, work, less, more, things, users=0):
    """Of one thing more, as callgrind counts them: the difference of two runs, which do the work so many times."""
    counts = []
    for times in (less, more):
        with served(kind, {"small": (4096, 10)}, CALLGRIND, users=users) as (server, drivers):
            work(server, drivers["small"], times)
            stop(server)
            counts.append(int(re.search(r"Collected : (\d+)", server.journal())[1]))
    return (counts[1] - counts[0]) // things


def asking(connections, line, end):
    """Each client asks, and then each takes its answer."""
    def work(server, _, times):
        clients = [server.client() for _ in range(connections)]
        for _ in range(times):
            for client in clients:
                client.send(line)
            for client in clients:
                while client.line() != end:
                    pass
    return work


def refused(users):
    """The last one of so many users sets a variable, and may not."""
    def work(server, _, times):
        client = server.client()
        client.ask(b"USERNAME u%05d\nPASSWORD x\n" % (users - 1))
        for _ in range(times):
            assert client.ask(b"SET VAR small v2048 1\n").startswith(b"ERR ")
    return work


def reporting(server, driver, times, size=(4096, 10)):
    for text in (reports(*size) * times)[1 : times + 1]:
        driver.send(text)
    driver.send(b'SETINFO last.one "1"\n')
    until(server, "small", "last.one")


def dearest(call, work, **of):
    """How many instructions the dearest of these calls of our server took in this work."""
    with tempfile.TemporaryDirectory() as folder:
        words = ["valgrind", "--tool=callgrind", f"--callgrind-out-file={folder}/part", f"--toggle-collect={call}", f"--dump-after={call}"]
        with served("ours", valgrind=words, **of) as (server, drivers):
            work(server, drivers)
            stop(server)
        parts = [part.read_text(encoding="utf-8") for part in pathlib.Path(folder).glob("part*")]
        return max(int(re.search(r"^totals: (\d+)", part, re.M)[1]) for part in parts)


def stops_in_listing(server, driver):
    """A client that stops within a listing, after which all values change."""
    client = server.client()
    client.send(LONG)
    driver.send(reports(*SIZES["large"])[1])
    until(server, "large", "v4095", b"y")
    return client


def leaves(server, drivers):
    stops_in_listing(server, drivers["large"]).close()
    time.sleep(2)


def takes_all(server, drivers):
    client = stops_in_listing(server, drivers["large"])
    while client.line() != b"END LIST VAR large\n":
        pass


def is_lost(_, drivers):
    drivers["huge"].lose()
    time.sleep(3)


def is_lost_with_enum_values(server, drivers):
    for number in range(1100):
        drivers["huge"].send(b"".join(b"ADDENUM v%04d %d\n" % (number, value) for value in range(256)))
    drivers["huge"].send(b'SETINFO last.one "1"\n')
    until(server, "huge", "last.one")
    is_lost(server, drivers)


def sets_at_once(server, _):
    client = server.client()
    client.ask(b"USERNAME u00000\nPASSWORD x\n")
    client.ask(b"SET VAR small v2048 1\n" * 97)


def memory(kind, clients, changes=False):
    """Beside so many clients that ask for the long listing and read nothing. After each one the driver may change all its values."""
    with served(kind, SIZES) as (server, drivers):
        for number in range(clients):
            server.client().send(b"LIST VAR large\n" * 8)
            if changes:
                drivers["large"].send(reports(*SIZES["large"])[1 - number % 2] + b"SETINFO round %d\n" % number)
                until(server, "large", "round", b"%d" % number)
        time.sleep(2)
        return server.kilobytes()


def bench(port, ups):
    """What netbench prints up to its first listings. NUT's server hangs in what comes later: clients that don't read."""
    said = ""
    with subprocess.Popen([NETBENCH, f"127.0.0.1:{port}", ups], stdout=subprocess.PIPE, text=True) as process:
        while "fresh connections:" not in said:
            said += process.stdout.readline()
        process.kill()
    return said


def speed(kind):
    """One round: what netbench prints, and how many lines of a driver are taken."""
    found = {}
    with served(kind, SIZES) as (server, drivers):
        for name, (count, width) in SIZES.items():
            said = bench(server.port, name)
            for connections, depth in ((1, 1), (64, 1), (1, 512), (64, 32)) if name == "small" else ():
                rate = re.search(rf"GET VAR +{connections} connections, +{depth} at once: +(\d+)", said)[1]
                at_once = f", {depth} requests at once" if depth > 1 else ""
                found[f"GET VAR, {connections} connection{'s' * (connections > 1)}{at_once}"] = int(rate)
            found[f"LIST VAR of {count:,} values of {width} bytes"] = int(re.search(r"fresh connections: +(\d+)", said)[1])
        start = time.monotonic()
        reporting(server, drivers["small"], 500, SIZES["small"])
        found["lines of a driver, 100 variables"] = int(500 * SIZES["small"][0] / (time.monotonic() - start))
    return found


def waits(server, driver):
    """How many microseconds it takes from just before a driver writes a new value, at random moments, until a client that asks for the
    value without pause reads this one or a later one."""
    driver.send(b'SETINFO battery.charge "0"\n')
    until(server, "small", "battery.charge")
    wire, get, written, found = server.client().wire, b"GET VAR small battery.charge\n", [], []
    start = due = time.monotonic()
    wire.send(get)
    while not (len(found) == len(written) and due > start + SECONDS):
        if (now := time.monotonic()) >= due:
            driver.send(b'SETINFO battery.charge "%d"\n' % (len(written) + 1))
            written.append(now)
            due += random.uniform(0, 0.003) if due < start + SECONDS else 60
        if select.select([wire], [], [], max(0, due - time.monotonic()))[0]:
            value = int(re.search(rb'"(\d+)"', wire.recv(1 << 12))[1])
            found += [(time.monotonic() - moment) * 1e6 for moment in written[len(found) : value]]
            wire.send(get)
    wire.close()
    return found


@contextlib.contextmanager
def asked(server, rates, rate=0):
    """62 clients of netbench ask while the block runs, so often a second, or without pause. The last of the rates is how often that was."""
    words = ["load", SECONDS + 1, 62, rate, 1, "GET VAR large v0050\n"]
    with subprocess.Popen([NETBENCH, f"127.0.0.1:{server.port}", "small", *map(str, words)], stdout=subprocess.PIPE, text=True) as process:
        time.sleep(0.5)
        yield
        rates.append(int(process.communicate()[0].split()[0]))


@contextlib.contextmanager
def beside(peers, text, floods=True):
    """These clients or this driver send the text on and on while the block runs; or once, and read nothing."""
    with pouring(peers, text) if floods else contextlib.nullcontext():
        for peer in peers if not floods else ():
            peer.send(text)
        time.sleep(0.5 if floods else 2)
        yield
    for peer in peers:
        peer.send(b"\n") if isinstance(peer, Driver) else peer.close()


def clients(server, count):
    return [server.client() for _ in range(count)]


@contextlib.contextmanager
def behind(work):
    """Does this in a thread while the block runs. It is handed what says that the block is over."""
    over = threading.Event()
    thread = threading.Thread(target=work, args=[over])
    thread.start()
    try:
        yield
    finally:
        over.set()
        thread.join()


def comes_and_goes(driver):
    """The driver is lost, comes again and reports 32,768 variables, again and again."""
    text = reports(*HUGE)[0]

    def work(over):
        while not over.is_set():
            driver.lose()
            driver.accept(text)
            while not (over.is_set() or driver.is_read()):
                time.sleep(0.01)

    return behind(work)


@contextlib.contextmanager
def leaving(server, driver):
    """62 clients stop within listings, between which all values change. After a second they leave."""
    changed, peers = reports(*SIZES["large"]), clients(server, 62)
    for number, peer in enumerate(peers):
        peer.send(LONG)
        driver.send(changed[number % 2])
        while not driver.is_read():
            time.sleep(0.001)

    def leave(over):
        over.wait(1)
        for peer in peers:
            peer.close()

    with behind(leave):
        yield


@contextlib.contextmanager
def again_and_again(server):
    """40 clients send lines that are too long. Whoever is closed comes again."""
    child = os.fork()
    if child == 0:
        try:
            peers = {}
            while True:
                while len(peers) < 40:
                    peer = socket.create_connection(("127.0.0.1", server.port))
                    peer.setblocking(False)
                    peers[peer] = None
                for peer in select.select([], list(peers), [])[1]:
                    try:
                        peer.send(TOO_LONG)
                    except BlockingIOError:
                        pass
                    except OSError:
                        peer.close()
                        del peers[peer]
        finally:
            os._exit(1)
    time.sleep(0.5)
    yield
    os.kill(child, signal.SIGKILL)
    os.waitpid(child, 0)


LONG, RW, CMD = b"LIST VAR large\n", b"LIST RW large\n" * 140, b"LIST CMD large\n" * 128
MEANWHILE = {
    "nothing": lambda *_: contextlib.nullcontext(),
    "62 clients ask `GET VAR` without pause": lambda server, _, rates: asked(server, rates),
    "62 clients ask half as often as the slower server can": lambda server, _, rates: asked(server, rates, min(rates[:2]) // 2),
    "60 clients stopped within a listing": lambda server, *_: beside(clients(server, 60), LONG, floods=False),
    "another driver writes without pause": lambda _, drivers, __: beside([drivers["large"]], reports(*SIZES["large"])[0]),
    "a driver of 32,768 variables comes and goes": lambda _, drivers, __: comes_and_goes(drivers["huge"]),
    "62 clients leave, each with a version of its own": lambda server, drivers, _: leaving(server, drivers["large"]),
    "1 client sends empty lines": lambda server, *_: beside(clients(server, 1), b"\n" * 65536),
    "40 clients send lines that are too long": lambda server, *_: again_and_again(server),
} | {
    f"{count} clients ask `{text[:text.index(b' large')].decode()}` without pause": lambda server, *_, text=text, count=count: beside(clients(server, count), text)
    for text in (RW, CMD) for count in (10, 40)
}  # fmt: skip


def times():
    """What is found of each server meanwhile, in rounds in which they take turns."""
    found = {what: {kind: [] for kind in COMMANDS} for what in MEANWHILE}
    with contextlib.ExitStack() as stack:
        servers = {kind: stack.enter_context(served(kind, {**SIZES, "huge": (1, 10)})) for kind in COMMANDS}
        for _, drivers in servers.values():
            drivers["large"].send(b"".join(b"ADDCMD c%d\n" % number for number in range(64)))
        for _ in range(ROUNDS):
            rates = []
            for what, busy in MEANWHILE.items():
                for kind, (server, drivers) in servers.items():
                    with busy(server, drivers, rates):
                        found[what][kind] += waits(server, drivers["small"])
    return found


def work_of(server):
    """How often it has waited, and how many milliseconds of a processor it took."""
    schedstat = pathlib.Path(f"/proc/{server.process.pid}/schedstat").read_text(encoding="utf-8")
    return server.wakeups(), int(schedstat.split()[0]) / 1e6


def idle():
    """A minute of each server, beside a driver that only answers PINGs and three clients that ask one after another."""
    with contextlib.ExitStack() as stack:
        all_of = [stack.enter_context(served(kind, {"small": SIZES["small"]}, max_age=15)) for kind in COMMANDS]
        asking = [(server, [server.client() for _ in range(3)]) for server, _ in all_of]
        wires = {drivers["small"].wire: drivers["small"] for _, drivers in all_of}
        time.sleep(10)
        before, due, asks = [work_of(server) for server, _ in all_of], time.monotonic(), 0
        while asks < IDLE_MINUTES * 60 // ASKS_EACH * 3:
            for wire in select.select(list(wires), [], [], max(0.0, due - time.monotonic()))[0]:
                if wires[wire].line() == b"PING\n":
                    wires[wire].send(b"PONG\n")
            if time.monotonic() >= due:
                for _, clients in asking:
                    clients[asks % 3].ask(b"GET VAR small ups.status\n")
                asks, due = asks + 1, due + ASKS_EACH / 3
        after = [work_of(server) for server, _ in all_of]
        return [[(b - a) / IDLE_MINUTES for a, b in zip(*of)] for of in zip(before, after)]


def time_rows():
    rows = ["meanwhile | ours: half; 99 of 100; worst | NUT's", "---|---|---"]
    for what, of in times().items():
        parts = [[sorted(waits)[len(waits) * part // 100] for part in (50, 99)] + [max(waits)] for waits in of.values()]
        rows.append(" | ".join([what, *("; ".join(f"{part:,.0f}" for part in of_one) for of_one in parts)]))
    return rows


def machine():
    cpu = re.search(r"model name\s*: (.*)", pathlib.Path("/proc/cpuinfo").read_text())[1]
    nut = subprocess.run(["/lib/nut/upsd", "-V"], capture_output=True, text=True).stdout.split("\n")[0].split()[-1]
    commit = subprocess.run(["git", "log", "-1", "--format=%h (%cs)"], cwd=TOP, capture_output=True, text=True).stdout.strip()
    load = " ".join(f"{it:.1f}" for it in os.getloadavg())
    return [f"{os.cpu_count()} processors, {cpu}; Linux {os.uname().release}; NUT's upsd {nut}; upsd of {commit}; load at the end {load}."]


def table(unit, rows):
    yield from (f"{unit} | ours | NUT's | better by", "---|---:|---:|---:")
    for what, ours, nut in rows:
        better = ours / nut if unit == "a second" else nut / ours
        yield f"{what} | {ours:,} | {nut:,} | {better:.2f}"


def speed_rows():
    rounds = [[speed(kind) for kind in COMMANDS] for _ in range(ROUNDS)]
    return table("a second", [(what, *(int(statistics.median(found[what] for found in of)) for of in zip(*rounds))) for what in rounds[0][0]])


def instruction_rows():
    get, got = b"GET VAR small v2048\n", b'VAR small v2048 "xxxxxxxxxx"\n'
    return table("instructions", [(what, *(instructions(kind, *words) for kind in COMMANDS)) for what, *words in (
        ("GET VAR, 1 connection", asking(1, get, got), 64, 704, 640),
        ("GET VAR, 64 connections", asking(64, get, got), 2, 12, 640),
        ("an item of LIST VAR", asking(1, b"LIST VAR small\n", b"END LIST VAR small\n"), 1, 3, 2 * 4097),
        ("a line of a driver", reporting, 1, 3, 2 * 4096),
    )])


def turn_rows():
    yield from ("turn | instructions", "---|---:")
    large, small = {"large": SIZES["large"]}, {"small": SIZES["small"]}
    for what, count in {
        "64 nodes of a lost driver's variables": dearest("*Server::forget", is_lost, sizes={"huge": (HUGE[0] - 1, 10)}),
        "the same, with 256 enum values each": dearest("*Server::forget", is_lost_with_enum_values, sizes={"huge": (1100, 10)}),
        "64 nodes that one client's listing kept": dearest("*Server::forget", leaves, sizes=large),
        "that listing's last bytes": dearest("*Server::step", takes_all, sizes=large),
        "trying 31 missing drivers": dearest("*drivers::connect*", lambda *_: time.sleep(3), sizes=small, missing=31),
        "the journal, after 97 refused `SET VAR`": dearest("*Journal::write*", sets_at_once, sizes=small, users=4),
    }.items():
        yield f"{what} | {count:,}"
    few, many = (instructions("ours", refused(users), 10, 1010, 1000, users) for users in (4, 10_000))
    yield f"a refused `SET VAR`, with 4 users; 10,000 | {few:,}; {many:,}"


def memory_rows():
    yield from table("KiB", [(what, *(memory(kind, count) for kind in COMMANDS))
                             for what, count in (("no client", 0), ("60 clients that stop within a listing", 60))])  # fmt: skip
    yield f"60 clients that stop, while the driver changes all values between | {memory('ours', 60, changes=True):,} | not measured |"


def idle_rows():
    rows = zip(("wakeups", "milliseconds of a processor"), *idle())
    return table("a minute", [(what, round(a, 1), round(b, 1)) for what, a, b in rows])


# The page, and its pictures.

PAGE = TOP / "docs" / "COSTS.md"
TABLES = {"speed": speed_rows, "time": time_rows, "instructions": instruction_rows, "turns": turn_rows, "memory": memory_rows, "idle": idle_rows, "machine": machine}
SMALL = ("nothing", "10 clients ask", "LIST VAR of 4,096")
COLOURS = {"ours": "#0a53a8", "NUT's": "#9a3412"}
LEFT, WIDE, TALL, TOP_OF = 330, 400, 15, 64


def made(kind):
    """The rows of a table of the page below its head: what, and a text of each server."""
    rows = re.search(rf"<!-- made: {kind} -->\n(.*?)<!-- end -->", PAGE.read_text(encoding="utf-8"), re.S)[1].splitlines()[2:]
    return [row.replace("`", "").split(" | ")[:3] for row in rows]


def number(text):
    return float(text.replace(",", ""))


def measured():
    """What the picture shows: of each group the unit, and of each row what it is and a number of each server."""
    waits = [(what, *(number(of.split("; ")[1]) for of in each)) for what, *each in made("time")]
    listings = [(what, *map(number, each)) for what, *each in made("speed") if what.startswith("LIST")]
    return {"From a driver's report to its answer, 99 of 100: microseconds, shorter is better": waits, "Listings a second: longer is better": listings}


def bars(what, values, y, least, most):
    """A row of the picture: its words, and a bar of each server on the logarithmic axis."""
    yield f'<text x="{LEFT - 10}" y="{y + TALL + 3}" text-anchor="end">{what}</text>'
    for place, (value, colour) in enumerate(zip(values, COLOURS.values())):
        length = WIDE * math.log(value / least) / math.log(most / least)
        top = y + place * TALL
        yield f'<rect x="{LEFT}" y="{top}" width="{length:.1f}" height="{TALL - 2}" fill="{colour}"/>'
        yield f'<text x="{LEFT + length + 6:.1f}" y="{top + TALL - 4}">{value:,.0f}</text>'


def picture(groups):
    y, drawn = TOP_OF, []
    for unit, rows in groups.items():
        drawn.append(f'<text x="20" y="{y}" class="unit">{unit}</text>')
        least, most = min(min(of) for _, *of in rows) / 2, max(max(of) for _, *of in rows)
        y += 12
        for what, *of in rows:
            drawn += bars(what, of, y, least, most)
            y += 2 * TALL + 8
        y += 30
    width, high = LEFT + WIDE + 90, y - 20
    legend = [f'<rect x="{20 + 150 * place}" y="20" width="14" height="14" fill="{colour}"/><text x="{40 + 150 * place}" y="32">{name}</text>'
              for place, (name, colour) in enumerate(zip(("Voqarchay's upsd", "NUT's upsd"), COLOURS.values()))]  # fmt: skip
    return "\n".join([
        f'<svg xmlns="http://www.w3.org/2000/svg" viewBox="0 0 {width} {high}" width="{width}" height="{high}" role="img" aria-labelledby="title">',
        '<title id="title">What answers take, and listings a second, of this server and NUT\'s; the axes are logarithmic</title>',
        '<style>text { font-family: "DejaVu Sans", Verdana, sans-serif; font-size: 12px; fill: #1f2328; } .unit { font-weight: bold; }</style>',
        f'<rect width="{width}" height="{high}" rx="10" fill="#f6f8fa" stroke="#d0d7de"/>', *legend, *drawn, "</svg>\n",
    ])  # fmt: skip


def pictures():
    groups = measured()
    small = {unit: [row for row in rows if row[0].startswith(SMALL)] for unit, rows in groups.items()}
    return {PAGE.parent / "costs.svg": picture(groups), PAGE.parent / "costs-small.svg": picture(small)}


def draw():
    for path, text in pictures().items():
        path.write_text(text, encoding="utf-8")


def write(kind, rows):
    page, mark = PAGE.read_text(encoding="utf-8"), f"<!-- made: {kind} -->\n"
    if mark in page:
        before, _, rest = page.partition(mark)
        PAGE.write_text(before + mark + rows + rest[rest.index("<!-- end -->") :], encoding="utf-8")


def main(words):
    if "--check" in words:
        differing = [path.name for path, text in pictures().items() if not path.exists() or path.read_text(encoding="utf-8") != text]
        return f"costs: {' '.join(differing)}: not of the tables of docs/COSTS.md: tools/costs.py --picture" if differing else 0
    kinds = [it for it in words if not it.startswith("--")] or TABLES
    for kind in () if "--picture" in words else kinds:
        rows = "\n".join(TABLES[kind]()) + "\n"
        print(rows, flush=True)
        if "--write" in words:
            write(kind, rows)
    if "--write" in words or "--picture" in words:
        draw()
    return 0


if __name__ == "__main__":
    sys.exit(main(sys.argv[1:]))
