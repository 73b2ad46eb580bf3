#!/usr/bin/env python3
"""What a real network asks of the server: the built upsd on real sockets, at ports that the system gives. Words: the names of the
cases, if not all are to run. A function without a parameter is a case."""
import atexit
import contextlib
import fcntl
import functools
import itertools
import multiprocessing
import os
import re
import select
import shutil
import socket
import subprocess
import sys
import termios
import threading
import time
import types

import serving
from replaying import HERE, Bench, built, ends_in_full
from serving import EMULATED, READY, TWO, Driver, comes, pouring

UPSD, DEMODRIVER = built("upsd", "demodriver")
LONGEST = 10.0 if EMULATED else 0.5
BENCH = Bench("serve", UPSD)
FOLDER = BENCH.folder.name
served = functools.partial(serving.served, FOLDER, UPSD)
USERS = """[admin]
password = "s3 cret"
actions = SET
instcmds = test.battery.start
upsmon primary
[mon]
password = pw
upsmon secondary
"""
ADMIN = b'USERNAME admin\nPASSWORD "s3 cret"\n'
MON = b"USERNAME mon\nPASSWORD pw\n"
BOTH = "sr", "su"  # the second of two UPSs is the one that is looked at
GET, STATUS = b"GET VAR su ups.status\n", b'VAR su ups.status "OL"\n'
AWAY = b"ERR DRIVER-NOT-CONNECTED\n"
NO_FILE = "cannot connect: No such file or directory\n"
REFUSED = "cannot connect: Connection refused\n"
NEWS = ["driver connected", "status OL", "data good"]
COME = "".join(f"upsd: su: {line}\n" for line in NEWS)
BY_ITSELF = "LOGOUT, or a line too long"
MANY = 4096
DRIVER_READ, CLIENT_READ = 512, 2048  # the most bytes that are read of one between two looks at the system


def path(name):
    return os.path.join(FOLDER, name)


def file(name, text):
    return BENCH.file(name, text.encode())


def begun(ups, *words, files=None, port=0):
    """A server over this file of UPSs, whose drivers are up to the case."""
    words = words or ("--users", path("users"))
    return contextlib.closing(serving.Server(UPSD, ups, *words, files=files, port=port))


def many(count, size):
    """What a driver reports that has so many variables of so many bytes."""
    return b'SETINFO ups.status "OL"\n' + b"".join(
        b'SETINFO v%04d "%s"\n' % (i, b"x" * size) for i in range(1, count))


def many_listed(count, size):
    items = many(count, size).replace(b"SETINFO", b"VAR su")
    return b"BEGIN LIST VAR su\n" + items + b"END LIST VAR su\n"


KEY = "write key = value, with blanks around =, and a value with blanks in quotes"
ENTRY = "write VARDESC or CMDDESC, a name, and a text in quotes"


def words_and_files_are_reported_as_faults():
    ups, users = file("list", "[su]\nsocket = /run/nut/su\n"), path("users")
    files = ["--ups", ups, "--users", users]
    bad = file("bad", "nothing\n")
    for listen in ["localhost:3493", "3493", "127.0.0.1", "127.0.0.1:65536", ""]:
        fault = f"upsd: bad argument\nupsd: --listen {listen}: not an IP address and a port, as 127.0.0.1:3493\n"
        for first in [], ["--listen", "127.0.0.1:0"]:
            BENCH.faults_of_words(2, fault.encode(), "serve", *files, *first, "--listen", listen)
    BENCH.faults_of_words(2, b"upsd: bad argument\nupsd: --listen: at most 8 addresses\n", "serve", *files, *9 * ["--listen", "127.0.0.1:0"])
    for words in [["--maxage", "2"], ["--maxage", "86401"], ["--maxage", "x"], ["more"]]:
        status, out, faults = BENCH.ends("serve", *files, *words)
        assert (status, out, faults[:7]) == (2, b"", b"error: "), words
    assert BENCH.ends("serve", "--ups", ups)[0] == 2
    absent = path("absent")
    missing = f"{absent}: cannot read\nupsd: {absent}: No such file or directory"
    # The first fault is reported, in the order of the words, the list, the users, the descriptions, the ids, the address.
    for words, fault in [
            (["--ups", bad, "--users", absent], f"{bad}:1: cause 1\nupsd: cause 1: malformed line: nothing: {KEY}"),
            (["--ups", ups, "--users", FOLDER], f"{FOLDER}: cannot read\nupsd: {FOLDER}: Is a directory"),
            (["--ups", ups, "--users", users, "--vars", bad], f"{bad}:1: cause 1\nupsd: cause 1: malformed line: nothing: {ENTRY}"),
            (files + ["--ids", absent, "--listen", "192.0.2.1:1"], missing),
            (files + ["--listen", "192.0.2.1:1"], "cannot listen\nupsd: 192.0.2.1:1: Cannot assign requested address")]:
        BENCH.faults_of_words(1, f"upsd: {fault}\n".encode(), "serve", *words)
    ended = ends_in_full(UPSD, "serve", *files, "--listen", "127.0.0.1:0")
    assert ended == (1, b"upsd: write failed\n"), ended


EXAMPLE, SMALL = "a password of the example, which everybody knows", "only ALL grants every command"
NO_PASSWORD = "a user without a password, who may do nothing"


def warned(*words):
    """What it warns of before it says that it listens, and by a replay of nothing."""
    with contextlib.closing(serving.Server(UPSD, *words)) as server:
        warnings = [line for line in server.journal().splitlines() if line.startswith("upsd: warning: ")]
    replayed = subprocess.run([UPSD, "replay", "--ups", *words[:3], "/dev/null"], capture_output=True, text=True, check=True)
    assert replayed.stderr.splitlines() == warnings[:len(replayed.stderr.splitlines())], replayed.stderr
    return warnings, len(warnings) - len(replayed.stderr.splitlines())


def dangers_of_the_files_are_warned_of():
    dangerous = "[a]\nactions = SET\n[b]\npassword = \"change-me\"\ninstcmds = All\n"
    dangerous += "[c]\npassword = change-me-too\ninstcmds = ALL\ninstcmds = test.all\n[d]\nupsmon secondary\n"
    dangers = [("a", NO_PASSWORD), ("b", EXAMPLE), ("b", SMALL), ("c", EXAMPLE), ("d", NO_PASSWORD)]
    users, ups = file("dangerous", dangerous), file("connected", "[su]\nsocket = /run/nut/su\n")
    lines = [f"upsd: warning: {users}: [{name}]: {danger}" for name, danger in dangers]
    for mode, is_warned in [(0o604, True), (0o640, False), (0o644, True)]:
        os.chmod(users, mode)
        warnings = [f"upsd: warning: {users}: everybody may read it"] * is_warned + lines
        assert warned(ups, "--users", users) == (warnings, 0), oct(mode)
    with contextlib.closing(serving.Server(UPSD, ups, "--users", users, "--priorities")) as server:
        assert [line[3:] for line in server.journal().splitlines() if line.startswith("<4>upsd: warning: ")] == warnings
    assert warned(ups, "--users", path("users")) == ([], 0)
    example = warned(ups, "--users", f"{HERE}/../examples/upsd.users")[0]
    assert sum(line.endswith(EXAMPLE) for line in example) == 2
    # Of a file that is refused only that is reported.
    refused = file("refused", dangerous + "[d]\n")
    BENCH.faults_of_words(1, f"upsd: {refused}:12: cause 4\nupsd: cause 4: duplicate: [d]\n".encode(), "serve", "--ups", path("list"), "--users", refused)


def what_the_files_lack_is_warned_of():
    some, none = file("some", f"[a]\n[b]\nsocket = {path('b.sock')}\n[c]\n"), file("none", "# nothing\n")
    os.chmod(none, 0o600)
    users = path("users")
    assert warned(some, "--users", users) == ([f"upsd: warning: {some}: [{ups}]: no socket of a driver" for ups in "ac"], 0)
    assert warned(none, "--users", none) == ([f"upsd: warning: {none}: no UPS", f"upsd: warning: {none}: no users"], 0)
    for ids in FOLDER, none, "/dev/null":
        warning = f"upsd: warning: {ids}: gives no id for a tracked order"
        assert warned(path("connected"), "--users", users, "--ids", ids) == ([warning], 1)
    assert warned(path("connected"), "--users", users, "--ids", "/dev/urandom") == ([], 0)
    warning, limited = "upsd: warning: --record-limit: no file to record in", ["--record-limit", "1"]
    assert warned(path("connected"), "--users", users, *limited) == ([warning], 1)
    assert warned(path("connected"), "--users", users, *limited, "--record", path("recorded")) == ([], 0)
    # Only a replay of nothing judges the files.
    script = file("script", "tick 1\n")
    judged = subprocess.run([UPSD, "replay", "--ups", some, "--users", none, script], capture_output=True, text=True, check=True)
    assert judged.stderr == "", judged.stderr


def what_is_served_is_logged_at_the_start():
    words = ["--listen", "[::1]:0", "--idle", "600", "--maxage", "20", "--ids", "/dev/urandom", "--priorities"]
    with begun(file("alone.conf", "[su]\n"), "--users", path("users"), *words) as server:
        line = (r"^<6>upsd: started: version \S+, UPSs: 1, at 127[.]0[.]0[.]1:%d \[::1\]:\d+, "
                r"--maxage 20 --keep-places 0 --idle 600 --ids$")
        assert comes(lambda: re.search(line % server.port, server.whole_journal(), re.MULTILINE)), server.whole_journal()
        assert server.whole_journal().count("started") == 1


def a_loop_that_cannot_go_on_is_logged():
    """As the system no longer reports what is ready."""
    words = ["serve", "--ups", file("alone.conf", "[su]\n"), "--users", path("users"), "--listen", "127.0.0.1:0", "--priorities"]
    ended = subprocess.run([UPSD, *words], preexec_fn=serving.refuse_to_wait, capture_output=True, text=True, timeout=10, check=False)
    assert ended.returncode == 1, ended
    assert ended.stderr.splitlines()[-2:] == ["<4>upsd: ended: ready failed", "upsd: ready failed"], ended


def logs(server, *lines):
    """The journal has what it had the last time, which was COME at first, and then these lines of su."""
    server.logged = getattr(server, "logged", COME) + "".join(f"upsd: su: {line}\n" for line in lines)
    assert comes(lambda: server.journal() == server.logged), server.journal()


ORDERS = TWO + b'SETINFO ups.delay "20"\nSETFLAGS ups.delay RW\nADDRANGE ups.delay 0 600\nADDCMD test.battery.start\n'


def orders_reach_the_driver_and_are_logged_once_without_values():
    with served(ORDERS) as (server, driver, good):
        order, command = b"SET VAR su ups.delay 30\n", b"INSTCMD su test.battery.start\n"
        assert good.ask(ADMIN + order + command + order) == b"OK\n" * 5
        given = [b'SET ups.delay "30"\n', b"INSTCMD test.battery.start\n", b'SET ups.delay "30"\n']
        assert [driver.line() for _ in given] == given
        assert good.ask(GET) == STATUS
        orders = ("SET VAR ups.delay", "INSTCMD test.battery.start", "SET VAR ups.delay")
        logs(server, *(f"admin@127.0.0.1 ordered {what}" for what in orders))
        driver.send(b'SETINFO ups.delay "30"\n')
        assert comes(lambda: good.ask(b"GET VAR su ups.delay\n") == b'VAR su ups.delay "30"\n')


def a_tracked_order_is_logged_with_its_id_and_its_end():
    with served(ORDERS, "--ids", "/dev/urandom") as (server, driver, good):
        assert good.ask(ADMIN + b"SET TRACKING ON\n") == b"OK\n" * 3
        for number, end in ((0, "succeeded"), (3, "failed: 3")):
            answer = good.ask(b"INSTCMD su test.battery.start\n")
            assert answer.startswith(b"OK TRACKING "), answer
            tracking_id = answer.split()[2].decode()
            assert driver.line().split()[:2] == [b"INSTCMD", b"test.battery.start"]
            driver.send(f"TRACKING {tracking_id} {number}\n".encode())
            logs(server, f"admin@127.0.0.1 ordered INSTCMD test.battery.start, tracked as {tracking_id}", f"order {tracking_id} {end}")


def a_driver_that_took_none_gets_its_orders_again():
    """Once it reads what its socket holds, and what it was owed beside that. Meanwhile its reports are answered."""
    order = b"INSTCMD su test.battery.start\n"
    with served(ORDERS, upses=BOTH) as (_, driver, good):
        assert good.ask(ADMIN) == b"OK\n" * 2
        while good.ask(order) == b"OK\n":
            pass
        time.sleep(1.1)
        driver.send(b'SETINFO ups.status "OB LB"\n')
        assert comes(lambda: good.ask(GET) == b'VAR su ups.status "OB LB"\n', 3), good.ask(GET)
        assert serving.taken(driver.wire, None, 0.3).endswith(b"\n")
        assert good.ask(order) == b"OK\n"
        assert driver.line() == b"INSTCMD test.battery.start\n"


def what_a_line_did_is_logged_before_it_is_answered():
    """Within a second too, not only once the next one begins."""
    refused = "127.0.0.1 was refused FSD: USERNAME-REQUIRED"
    with served() as (server, _, good):
        logs(server)
        for _ in range(3):
            assert good.ask(b"FSD su\n") == b"ERR USERNAME-REQUIRED\n"
            server.logged += f"upsd: su: {refused}\n"
            assert server.journal() == server.logged, server.journal()


def a_forced_shutdown_is_seen_and_each_order_of_it_logged():
    with served() as (server, _, good):
        other = server.client()
        assert other.ask(MON + b"FSD su\n") == b"OK\nOK\nERR ACCESS-DENIED\n"
        logs(server, "mon@127.0.0.1 was refused FSD: ACCESS-DENIED")
        assert good.ask(ADMIN + b"FSD su\nFSD su\n") == b"OK\nOK\nOK FSD-SET\nOK FSD-SET\n"
        assert other.ask(GET) == b'VAR su ups.status "FSD OL"\n'
        logs(server, *["admin@127.0.0.1 ordered FSD: forced shutdown"] * 2)


def read_to_end_of_drops(reading, journal):
    """The lines of a standard error that begins so, up to the one that says how many were dropped."""
    while not re.search(rb"were dropped\r?\n$", journal):
        assert select.select([reading], [], [], 4 * serving.SLOWER)[0], journal[-200:]
        journal += os.read(reading, 1 << 16)
    return journal.decode().splitlines()


ALARMS = b"".join(b'SETINFO ups.status "OB %d%s"\n' % (number, b"\xff" * 505) for number in range(8))


def a_standard_error_that_nobody_reads_stops_nothing():
    """A pipe, and a terminal. A driver reports as many long alarms as are logged."""
    slowest, refusal = 0, b"ERR USERNAME-REQUIRED\n"
    for reading, errors in (os.pipe(), os.openpty()):
        with served(errors=errors) as (server, driver, good):
            os.close(errors)
            for _ in range(8):
                driver.send(ALARMS)
                assert comes(lambda: b'"OB 7' in good.ask(GET))  # noqa: B023
                driver.send(b'SETINFO ups.status "OL"\n')
                assert comes(lambda: good.ask(GET) == STATUS)  # noqa: B023
                slowest = max(slowest, worst_wait(good, 1))
                time.sleep(1)
            # Once there is room for a piece, no more is written.
            journal = os.read(reading, 4096)
            time.sleep(1.1)
            slowest, begin = max(slowest, worst_wait(good, 1)), time.monotonic()
            lines = read_to_end_of_drops(reading, journal)
            # A pipe takes all that waits at once, a terminal some of it.
            assert os.isatty(reading) or time.monotonic() - begin < 3 * serving.SLOWER, "the lines lag"
            logged, dropped = sum("status OB" in line for line in lines), int(lines[-1].split()[1])
            assert "".join(line + "\n" for line in lines[1:4]) == COME, lines[:4]
            assert 0 < dropped and 56 <= logged + dropped <= 90, (logged, dropped)
            good.send(b"LOGIN su\n")
            assert good.line() == refusal
            assert b"127.0.0.1 was refused LOGIN" in os.read(reading, 1 << 16)
        os.close(reading)
    assert slowest < 0.2, f"{slowest:.3f} s for an answer"
    return f"the slowest answer took {slowest * 1000:.1f} ms"


MORE = re.compile(r"upsd: (?:su: more lines|more lines of 127[.]0[.]0[.][0-9]+): ([^;]*)(?:; now .*)?")


def parts_of(server, line, kind):
    """How many lines of the journal are this one, and how many more of this kind are counted."""
    lines = server.journal().splitlines()
    counted = [count for every in map(MORE.fullmatch, lines) if every for count in every[1].split(", ")]
    return (sum(re.fullmatch(f"upsd: su: {line}", every) is not None for every in lines),
            sum(int(count.split(" ", 1)[0]) for count in counted if re.fullmatch(kind, count.split(" ", 1)[1])))


def log_in_and_out(server):
    for _ in range(100):
        client = server.client()
        assert client.ask(MON + b"LOGIN su\nLOGOUT\n", 4).endswith(b"Goodbye\n")
        client.close()


def guess(server):
    for _ in range(40):
        client = server.client()
        assert client.ask(b"USERNAME mon\nPASSWORD x\n" + b"LOGIN su\n" * 20).count(b"DENIED") == 20
        client.close()


def of_a_flood_each_line_is_logged_or_counted():
    """Few are logged, whatever floods the journal: what is counted may wait for the minute."""
    for flood, *wanted in [
            (lambda server, driver, good: driver.send(b'SETINFO ups.status "OB"\nSETINFO ups.status "OL"\n' * 100),
             ("status OB", "status with OB or LB", 100), ("status OL", "status", 101)),
            (lambda server, driver, good: driver.send(b"DATASTALE\nDATAOK\n" * 100), ("data stale", "data stale", 100), ("data good", "data good", 101)),
            (lambda server, *_: log_in_and_out(server), ("mon@127.0.0.1 logged in", "logged in", 100), ("mon@127.0.0.1 logged out: " + BY_ITSELF, "logged out", 100)),
            (lambda server, *_: guess(server), ("mon@127.0.0.1 was refused LOGIN: ACCESS-DENIED", "denied LOGIN or rights", 800))]:
        with served() as (server, driver, good):
            begin = time.monotonic()
            flood(server, driver, good)
            for line, kind, count in wanted:
                assert comes(lambda: sum(parts_of(server, line, kind)) == count, 62), (line, parts_of(server, line, kind))  # noqa: B023
            most = 12 * (time.monotonic() - begin + 2)
            assert sum(parts_of(server, *wanted[0][:2])) > parts_of(server, *wanted[0][:2])[0], "nothing is counted"
            assert server.journal().count("\n") <= most, (most, server.journal())


def what_matters_most_is_logged_in_a_flood():
    """Of an address a forced shutdown after orders and refusals, of a UPS its failing power after all else."""
    with served(ORDERS) as (server, driver, good):
        time.sleep(1 - time.time() % 1)
        guess_at = server.client()
        assert good.ask(ADMIN) == b"OK\n" * 2
        for _ in range(3):
            assert guess_at.ask(b"LOGIN su\n" * 50).count(b"ERR") == 50
            assert good.ask(b"INSTCMD su test.battery.start\n" * 50) == b"OK\n" * 50
            assert good.ask(b"FSD su\n") == b"OK FSD-SET\n"
            driver.send(b'SETINFO ups.status "OL CHRG"\nSETINFO ups.status "OL"\n' * 10 + b'SETINFO ups.status "OB LB"\n')
            time.sleep(1.1)
            driver.send(b'SETINFO ups.status "OL"\n')
        for line in ("status OB LB", "admin@127.0.0.1 ordered FSD: forced shutdown"):
            assert server.journal().count(f"upsd: su: {line}\n") == 3, (line, server.journal())
        assert server.journal().count("ordered INSTCMD") >= 3


def names_of_users_forge_no_line():
    with served() as (server, _, good):
        name = b"root@192.0.2.66 was\\\\ refused LOGIN: ACCESS-DENIED"
        assert good.ask(b'USERNAME "%s"\nPASSWORD x\nLOGIN su\n' % name, 3).endswith(b"DENIED\n")
        logs(server, "root\\x40192.0.2.66\\x20was\\\\\\x20refused\\x20LOGIN:\\x20ACCESS-DENIED@127.0.0.1 was refused LOGIN: ACCESS-DENIED")


def who_logs_in_or_attaches_is_logged_and_who_leaves():
    with served() as (server, _, good):
        first, second = server.client("127.0.0.2"), server.client("127.0.0.3")
        assert first.ask(MON + b"LOGIN su\n") == b"OK\n" * 3
        logs(server, "mon@127.0.0.2 logged in")
        assert second.ask(ADMIN + b"ATTACH su\n") == b"OK\n" * 3
        logs(server, "admin@127.0.0.3 logged in")
        assert good.ask(b"GET NUMATTACH su\n") == b"NUMATTACH su 2\n"
        # One says so, one is gone. Of who isn't logged in nothing is logged.
        assert good.ask(MON) == b"OK\n" * 2
        assert first.ask(b"DETACH\n") == b"OK Goodbye\n"
        logs(server, "mon@127.0.0.2 logged out: " + BY_ITSELF)
        second.reset()
        logs(server, "admin@127.0.0.3 logged out: its connection failed")


def a_login_is_logged_with_its_ups():
    with begun(file("two.conf", "[a]\n[b]\n")) as server:
        assert server.client().ask(MON + b"LOGIN b\n") == b"OK\n" * 3
        assert comes(lambda: server.journal().endswith("\nupsd: b: mon@127.0.0.1 logged in\n")), server.journal()


def a_login_of_one_piece_is_logged_and_its_end():
    """By LOGOUT, by a line that is too long, and by the end of the connection."""
    with served() as (server, _, good):
        for end in (b"LOGOUT\n", b"x" * 3000, b""):
            client = server.client()
            client.send(MON + b"LOGIN su\n" + end)
            if end:
                client.up_to_end()
            client.close()
        assert good.ask(GET) == STATUS
        # One that is closed with unread input is reset.
        assert comes(lambda: re.search(r"out: its connection (ended|failed)\n$", server.journal())), server.journal()
        outs = [BY_ITSELF, BY_ITSELF, server.journal().splitlines()[-1].partition(" out: ")[2]]
        logs(server, *(f"mon@127.0.0.1 logged {what}" for out in outs for what in ("in", f"out: {out}")))


def each_ups_is_logged_with_its_own_status():
    """Whatever another one has, and of many lines in a second the last one. The longest is logged whole."""
    drivers = [Driver(path(f"{name}.sock")) for name in "ab"]
    with begun(file("both.conf", "".join(f"[{name}]\nsocket = {path(name)}.sock\n" for name in "ab"))) as server:
        for driver in drivers:
            driver.accept(TWO)
        assert comes(lambda: server.journal().count(": data good\n") == 2), server.journal()
        for name, driver in zip("ba", drivers[::-1]):
            driver.send(b'SETINFO ups.status "%s"\n' % (b"\xff" * 512) + b'SETINFO ups.status "OL %s"\n' % name.encode())
            line = f"upsd: {name}: status "
            assert comes(lambda: server.journal().endswith(line + "\\xff" * 512 + f"\n{line}OL {name}\n")), server.journal()  # noqa: B023
        for name, driver in zip("ba", drivers[::-1]):
            driver.send(b'SETINFO ups.status "OL"\nSETINFO ups.status "OB"\n' * 20 + b'SETINFO ups.status "OL %s"\n' % name.encode())
            ending = f"; now data good, status OL {name}\n"
            assert comes(lambda: re.search(f"^upsd: {name}: more lines: .*{ending}", server.journal(), re.M)), server.journal()  # noqa: B023
    for driver in drivers:
        driver.close()


def refused_lines_of_a_driver_are_logged_with_their_number():
    with served() as (server, driver, good):
        driver.send(b'HELLO s3cret\nUNKNOWN x\nNOPE\nADDRANGE battery.charge 1 s3cret\n')
        logs(server, "lines of the driver refused: 4, the last one: bad number")
        driver.send(b'TRACKING 12345678-1234-1234-1234-123456789abc 0\n')
        logs(server, "lines of the driver refused: 1, the last one: no such order")
        time.sleep(1.2)
        logs(server)
        assert good.ask(GET) == STATUS
        # Those of two pieces are added up. A second may begin between them.
        for _ in range(3):
            for piece in b"NOPE\n", b"SETINFO\nADDRANGE battery.charge 1 2x\n":
                driver.send(piece)
                time.sleep(0.05)
            time.sleep(1.2)
        assert "refused: 3, the last one: bad number\n" in server.journal(), server.journal()


def a_refused_line_that_speaks_of_the_status_is_a_warning_with_its_bytes():
    """Of the second UPS's driver. A long one is cut after 60 bytes."""
    drivers = [Driver(path(f"{name}.sock")) for name in "ab"]
    both = file("both.conf", "".join(f"[{name}]\nsocket = {path(name)}.sock\n" for name in "ab"))
    with begun(both, "--users", path("users"), "--priorities") as server:
        for driver in drivers:
            driver.accept(TWO)
        assert comes(lambda: server.journal().count(": data good\n") == 2), server.journal()
        begin = len(server.journal())
        for line, shown in [(b'SETINFO ups.status "OB "LB"', 'SETINFO ups.status \\"OB \\"LB\\"'),
                            (b'SETINFO ups.status ALARM OB\a' + b"x" * 60, "SETINFO ups.status ALARM OB\\x07" + "x" * 32)]:
            drivers[1].send(b'NOPE ups.statuses\n' + line + b"\n")
            line = f"<4>upsd: b: line of the driver refused (malformed line): {shown}\n"
            assert comes(lambda: line in server.journal()), (line, server.journal())  # noqa: B023
        assert server.journal()[begin:].count("<4>") == 2, server.journal()
        assert server.client().ask(b"GET VAR b ups.status\n") == b'VAR b ups.status "OL"\n'
    for driver in drivers:
        driver.close()


def drivers_are_connected_to_before_it_says_that_it_listens():
    drivers = [Driver(path(f"d{number}.sock")) for number in range(32)]
    ups = file("most.conf", "".join(f"[d{number}]\nsocket = {driver.path}\n" for number, driver in enumerate(drivers)))
    with begun(ups):
        for driver in drivers:
            assert select.select([driver.listener], [], [], 0)[0], "it isn't connected to"
            driver.close()


def a_lost_driver_comes_back():
    with served() as (server, driver, good):
        cut_off = "upsd: drivers cut off, out of memory or by an endless line: 1\n"
        for lose, is_cut_off in ((driver.lose, False), (lambda: driver.send(b"x" * 100_000), True)):  # it ends, or sends no LF
            with contextlib.suppress(OSError):
                lose()
            assert comes(lambda: good.ask(GET) != STATUS)  # it may be connected to again by now
            driver.lose()
            driver.accept(TWO)
            assert comes(lambda: good.ask(GET) == STATUS)
            assert comes(lambda: (cut_off in server.journal()) == is_cut_off), server.journal()  # noqa: B023
        wanted = COME + f"upsd: su: driver lost\n{COME}" * 2
        assert comes(lambda: cut_off in server.journal() and server.journal().replace(cut_off, "", 1) == wanted), server.journal()


def drivers_that_are_not_there_are_tried_again():
    """And why they can't be connected to is logged once for each reason."""
    absent, plain, refusing = path("absent.sock"), file("plain", ""), Driver(path("refusing.sock"))
    refusing.listener.close()
    ups = file("three.conf", f"[a]\nsocket = {absent}\n[b]\nsocket = {plain}\n[c]\nsocket = {refusing.path}\n")
    asks = b"GET VAR a x\nGET VAR b x\nGET VAR c x\n"
    wanted = ["upsd: a: " + NO_FILE, "upsd: b: " + REFUSED, "upsd: c: " + REFUSED]
    with begun(ups) as server:
        good = server.client()
        assert good.ask(asks) == AWAY * 3
        assert comes(lambda: sorted(server.journal().splitlines(True)) == wanted), server.journal()
        time.sleep(1.2)
        assert sorted(server.journal().splitlines(True)) == wanted, server.journal()
        os.unlink(plain)
        assert comes(lambda: server.journal().endswith("upsd: b: " + NO_FILE)), server.journal()
        os.unlink(refusing.path)
        drivers = [Driver(there).accept(b'SETINFO x "1"\n') for there in (absent, plain, refusing.path)]
        assert comes(lambda: good.ask(asks).count(b'"1"') == 3)
        wanted = [f"upsd: {name}: {news}" for name in "abc" for news in ["data good", "driver connected"]]
        assert comes(lambda: [line for line in sorted(server.journal().splitlines()) if "cannot connect" not in line] == wanted), server.journal()
        os.unlink(absent)
        drivers[0].lose()  # once more for the reason that there was before
        assert comes(lambda: server.journal().endswith("upsd: a: driver lost\nupsd: a: " + NO_FILE)), server.journal()
        for driver in drivers[1:]:
            driver.close()


def what_nut_leaves_out_is_left_out_where_that_is_asked_for():
    with served(TWO, "--nut-bytes") as (_, driver, good):
        driver.send(b'SETINFO x "B\xc3\xbcro\x7f"\n')
        good.send(b"\r" * 5000)
        assert comes(lambda: good.ask(b"GET VAR su x\r\r\n") == b'VAR su x "Bro"\n')


def a_silent_driver_is_pinged_and_goes_stale():
    with served(TWO, "--maxage", "3") as (server, driver, good):
        assert driver.line() == b"PING\n"
        assert good.ask(GET) == STATUS
        logs(server)
        assert comes(lambda: good.ask(GET) == b"ERR DATA-STALE\n", 6)
        driver.send(b"PONG\n")
        logs(server, "data stale", "data good")
        assert good.ask(GET) == STATUS


def data_that_a_driver_takes_back_are_logged_once():
    with served() as (server, driver, good):
        driver.send(b"DATASTALE\nDATASTALE\n")
        assert comes(lambda: good.ask(GET) == b"ERR DATA-STALE\n")
        driver.send(b'SETINFO battery.charge "99"\nDATASTALE\n')
        driver.send(b"DATAOK\nDATAOK\n")
        logs(server, "data stale", "data good")
        # Lost while they are stale, they are logged as good once the driver has reported all again.
        driver.send(b"DATASTALE\n")
        assert comes(lambda: good.ask(GET) == b"ERR DATA-STALE\n")
        driver.lose()
        driver.accept(TWO)
        logs(server, "data stale", "driver lost", *NEWS)


def each_change_of_the_status_is_logged():
    with served() as (server, driver, good):
        for status in [b"OB", b"OB", b"OB LB", b"OL"]:
            driver.send(b'SETINFO ups.status "%s"\n' % status)
            assert comes(lambda: good.ask(GET) == b'VAR su ups.status "%s"\n' % status)
        driver.send(b"DELINFO ups.status\n")
        assert comes(lambda: good.ask(GET) == b"ERR VAR-NOT-SUPPORTED\n")
        driver.send(b'SETINFO ups.status "OL"\n')
        logs(server, "status OB", "status OB LB", *["status OL"] * 2)


def what_is_undone_in_the_same_write_is_logged():
    with served() as (server, driver, _):
        driver.send(b'SETINFO ups.status "OB LB"\nSETINFO ups.status "OL"\n')
        logs(server, "status OB LB", "status OL")
        time.sleep(1)
        driver.send(b"DATASTALE\nDATAOK\nSETINFO\n" + b'SETINFO ups.status "OB"\nSETINFO ups.status "OL"\n' * 2)
        lines = ["data stale", "data good", *["status OB", "status OL"] * 2]
        logs(server, *lines, "lines of the driver refused: 1, the last one: malformed line")


def a_driver_that_never_reports_all_is_logged_as_stale():
    driver = Driver(path("never.sock"))
    with begun(file("never.conf", f"[su]\nsocket = {driver.path}\n"), "--users", path("users"), "--maxage", "3") as server:
        driver.accept()
        driver.send(b'SETINFO ups.status "OL"\n')
        wanted = "upsd: su: driver connected\nupsd: su: status OL\nupsd: su: data stale\n"
        for _ in range(8):
            time.sleep(0.7)
            driver.send(b"PONG\n")
        assert server.journal() == wanted, server.journal()
        driver.send(READY)
        wanted += "upsd: su: data good\n"
        assert comes(lambda: server.journal() == wanted), server.journal()
    driver.close()


def each_line_has_its_priority_where_it_is_asked_for():
    with served(ORDERS, "--priorities") as (server, driver, good):
        assert good.ask(ADMIN + b"LOGIN su\nINSTCMD su test.battery.start\nFSD su\nLOGIN su\n", 6)
        for status in [b"OB", b"FSD OB LB"]:
            driver.send(b'SETINFO ups.status "%s"\n' % status)
            assert comes(lambda: status in good.ask(GET))  # noqa: B023
        driver.send(b"DATASTALE\n")
        assert comes(lambda: good.ask(GET) == b"ERR DATA-STALE\n")
        driver.listener.close()
        driver.lose()
        wanted = [(6, line) for line in COME.splitlines()] + [
            (6, "upsd: su: admin@127.0.0.1 logged in"),
            (5, "upsd: su: admin@127.0.0.1 ordered INSTCMD test.battery.start"),
            (2, "upsd: su: admin@127.0.0.1 ordered FSD: forced shutdown"),
            (6, "upsd: su: admin@127.0.0.1 was refused LOGIN: ALREADY-LOGGED-IN"),
            (4, "upsd: su: status OB"),
            (2, "upsd: su: status FSD OB LB"),
            (4, "upsd: su: data stale"),
            (4, "upsd: su: driver lost"),
            (4, "upsd: su: " + REFUSED.strip())]
        lines = [f"<{level}>{line}" for level, line in wanted]
        assert comes(lambda: server.journal().splitlines()[:len(lines)] == lines), server.journal()


def each_order_of_another_kind_is_logged_behind_a_flood_of_one():
    with served(ORDERS) as (server, _, good):
        assert good.ask(ADMIN + b"SET VAR su ups.delay 30\n" * 12 + b"INSTCMD su test.battery.start\n") == b"OK\n" * 15
        assert server.journal().count("upsd: su: admin@127.0.0.1 ordered INSTCMD test.battery.start\n") == 1, server.journal()


def each_forced_shutdown_of_twelve_upses_is_logged():
    names = [f"u{number:02}" for number in range(12)]
    with begun(file("twelve.conf", "".join(f"[{name}]\n" for name in names))) as server:
        client = server.client()
        assert client.ask(ADMIN + b"".join(b"FSD %s\n" % name.encode() for name in names)) == b"OK\n" * 2 + b"OK FSD-SET\n" * 12
        for name in names:
            assert server.journal().count(f"upsd: {name}: admin@127.0.0.1 ordered FSD: forced shutdown\n") == 1, (name, server.journal())


def each_order_is_logged_among_refusals_of_64_addresses():
    """Which are no more than 30 lines a second together. After 20 lines in a minute those of an address are counted."""
    done, begin = threading.Event(), time.monotonic()

    def guess_from(numbers):
        for number in itertools.cycle(numbers):
            if done.is_set():
                return
            client = server.client(f"127.0.1.{number}")
            client.ask(b"LOGIN su\n" * 20)
            client.close()

    with served(ORDERS) as (server, _, good):
        threads = [threading.Thread(target=guess_from, args=(range(first, first + 16),)) for first in (1, 17, 33, 49)]
        assert good.ask(ADMIN) == b"OK\n" * 2
        for thread in threads:
            thread.start()
        try:
            time.sleep(1)
            for _ in range(20):
                assert good.ask(b"INSTCMD su test.battery.start\n") == b"OK\n"
                time.sleep(0.15)
        finally:
            done.set()
            for thread in threads:
                thread.join()
        seconds, lines = time.monotonic() - begin, server.journal().splitlines()
        assert lines.count("upsd: su: admin@127.0.0.1 ordered INSTCMD test.battery.start") == 20, server.journal()
        named = sum("was refused LOGIN" in line for line in lines)
        assert 0 < named <= 30 * (seconds + 2), (named, seconds)


def of_70_addresses_each_line_is_logged_or_counted():
    """Of 64 by itself, of all others together."""
    with served() as (server, *_):
        for number in range(1, 71):
            client = server.client(f"127.0.2.{number}")
            assert client.ask(b"LOGIN su\n" * 20).count(b"ERR ") == 20
            client.close()

        def parts():
            return (server.journal().count(" was refused LOGIN: "),
                    sum(map(int, re.findall("^upsd: more lines of (?:127[.]0[.]2[.][0-9]+|other addresses): ([0-9]+) refused LOGIN$", server.journal(), re.M))))

        assert comes(lambda: sum(parts()) == 1400, 62), (parts(), server.journal())


def after_20_lines_in_a_minute_a_client_is_only_counted():
    """Its first minute has at most 30 lines of it. An order of the same address is logged still."""
    with served(ORDERS) as (server, _, good):
        stranger, end = server.client(), time.monotonic() + 6
        while time.monotonic() < end:
            assert stranger.ask(b"LOGIN u01\n").startswith(b"ERR ")
        assert good.ask(ADMIN + b"INSTCMD su test.battery.start\n") == b"OK\n" * 3
        lines = server.journal().splitlines()
        assert sum("127.0.0.1 was refused LOGIN" in line for line in lines) == 20, server.journal()
        assert sum("127.0.0.1" in line for line in lines) <= 30, server.journal()
        assert lines[-1] == "upsd: su: admin@127.0.0.1 ordered INSTCMD test.battery.start", lines[-3:]


def a_forced_shutdown_behind_refused_lines_of_the_same_read_is_logged():
    with served() as (server, _, good):
        assert good.ask(ADMIN + b"LOGIN x\n" * 64 + b"FSD su\n") == b"OK\n" * 2 + b"ERR UNKNOWN-UPS\n" * 64 + b"OK FSD-SET\n"
        logs_of = server.journal().splitlines()
        assert logs_of.count("upsd: su: admin@127.0.0.1 ordered FSD: forced shutdown") == 1, logs_of


def what_matters_is_logged_behind_a_reader_that_sleeps():
    """Of a standard error that nobody reads for three seconds, in a flood of a driver's long statuses: OB LB, and a forced shutdown."""
    reading, errors = os.pipe()
    with served(errors=errors) as (server, driver, good):
        os.close(errors)
        assert good.ask(ADMIN) == b"OK\n" * 2
        for _ in range(8):
            driver.send(ALARMS)
            time.sleep(1)
        driver.send(b'SETINFO ups.status "OB LB"\n')
        assert comes(lambda: b"OB LB" in good.ask(GET))
        assert good.ask(b"FSD su\n") == b"OK FSD-SET\n"
        lines = read_to_end_of_drops(reading, b"")
        for line in "status OB LB", "admin@127.0.0.1 ordered FSD: forced shutdown":
            assert lines.count(f"upsd: su: {line}") == 1, (line, lines[-5:])
    os.close(reading)


def a_count_has_the_priority_of_the_most_urgent_line():
    with served(TWO, "--priorities") as (server, driver, _):
        time.sleep(1 - time.time() % 1)
        driver.send(b'SETINFO ups.status "OL"\nSETINFO ups.status "OB LB"\n' * 20)
        assert comes(lambda: re.search("^<2>upsd: su: more lines: [0-9]+ status, [0-9]+ status with OB and LB; now data good, status OB LB$",
                                       server.journal(), re.M)), server.journal()


def each_of_two_upses_has_its_own_lines():
    """A refused line of the second one's driver, and its login and logout."""
    drivers = [Driver(path(f"{name}.sock")) for name in "ab"]
    with begun(file("both.conf", "".join(f"[{name}]\nsocket = {path(name)}.sock\n" for name in "ab"))) as server:
        for driver in drivers:
            driver.accept(TWO)
        assert comes(lambda: server.journal().count(": data good\n") == 2), server.journal()
        drivers[1].send(b"NOPE\n")
        client = server.client()
        assert client.ask(MON + b"LOGIN b\nLOGOUT\n").endswith(b"Goodbye\n")
        for line in ("mon@127.0.0.1 logged in", f"mon@127.0.0.1 logged out: {BY_ITSELF}", "lines of the driver refused: 1, the last one: "):
            assert comes(lambda: f"upsd: b: {line}" in server.journal()), (line, server.journal())  # noqa: B023
        assert "refused" not in server.journal().replace("upsd: b: lines of the driver refused", "")
    for driver in drivers:
        driver.close()


COMINGS, GREATER_AGE = [], 20
BEGAN = time.monotonic()
STALE = []  # when the journal said so, of a driver that never reports all


def come_and_go(driver):
    with contextlib.suppress(OSError):
        while True:
            COMINGS.append(driver.accept(TWO))
            time.sleep(0.2)
            driver.lose()
            if not STALE and "upsd: slow: data stale\n" in RESTLESS.journal():
                STALE.append(time.monotonic() - BEGAN)


def a_driver_that_comes_and_goes_is_logged_once_a_minute():
    """It does so from the first case on, and in each minute is logged at first. Beside it is one that never reports all."""
    wanted = [f"upsd: su: {line}" for line in [*NEWS, "driver lost"] * 5]

    def lines():
        return [line for line in RESTLESS.journal().splitlines() if line.startswith("upsd: su: ")]

    assert comes(lambda: "more lines" in RESTLESS.journal(), 62), RESTLESS.journal()
    came, logged = len(COMINGS), lines()
    assert logged[:20] == wanted and logged[20].startswith("upsd: su: more lines: ") and "; now d" in logged[20], logged
    # In the first minute it was lost as often as it came, or has just come.
    minute = types.SimpleNamespace(journal=lambda: RESTLESS.journal().partition("; now ")[0] + "; now \n")
    counts = [sum(parts_of(minute, line, line)) for line in (*NEWS[::2], "driver lost")]
    assert 20 <= min(counts) and max(counts) <= min(min(counts) + 1, came + 1), (counts, came, logged)
    assert comes(lambda: lines()[21:].count("upsd: su: driver lost") >= 2), lines()
    assert comes(lambda: STALE, 30) and GREATER_AGE <= STALE[0] <= GREATER_AGE + 5, STALE
    RESTLESS.close()


def the_sixty_fifth_client_is_closed():
    with served() as (server, _, good):
        others = [server.client() for _ in range(63)]
        for other in others:
            assert other.ask(GET) == STATUS
        for _ in range(3):
            late = server.client()
            with contextlib.suppress(ConnectionResetError):
                assert late.wire.recv(1) == b""
            late.close()
        assert all(other.ask(GET) == STATUS for other in [good, *others])
        assert comes(lambda: 1 <= sent_away(server) <= 3), server.journal()
        others.pop().close()
        assert comes(lambda: is_answered(server.client(), GET, STATUS))


def a_newcomer_without_a_descriptor_is_logged_once_a_minute():
    """And is served once there is one."""
    with begun(file("one.conf", "[su]\n"), files=8) as server:
        clients = [server.client() for _ in range(8)]
        line = "upsd: clients not accepted, without a descriptor or memory: "
        assert comes(lambda: line in server.journal()), server.journal()
        time.sleep(3.2)
        assert server.journal().count(line) <= 2, server.journal()  # a minute may have begun
        for client in clients[:-1]:
            client.close()
        assert clients[-1].ask(b"NETVER\n") == b"1.3\n"


def a_terminal_that_the_server_may_not_open_is_named():
    """One that is open for its holder alone, or another user's."""
    reading, terminal = os.openpty()
    fcntl.ioctl(terminal, termios.TIOCEXCL)
    words = [shutil.copy(UPSD, path("upsd")), "serve", "--ups", file("one.conf", "[su]\n"), "--users", file("one.users", ""), "--listen", "127.0.0.1:0"]
    for readable in FOLDER, words[0], words[3], words[5]:
        os.chmod(readable, 0o755)
    user = {} if os.geteuid() else {"user": 65534}
    with subprocess.Popen(words, stdout=subprocess.PIPE, stderr=terminal, **user) as server:
        try:
            lines = b""
            while b"may stop the server" not in lines:
                assert select.select([reading], [], [], 10)[0], lines
                lines += os.read(reading, 4096)
        finally:
            server.kill()
    for end in reading, terminal:
        os.close(end)


def sent_away(server):
    """How many clients the journal says were sent away. It says so once a minute."""
    lines = re.findall(r"^upsd: sent away: 127[.]0[.]0[.]1: (\d+)$", server.journal(), re.M)
    assert len(lines) <= 2, server.journal()
    return sum(map(int, lines))


def worst_wait(client, count):
    """The longest of so many waits, but for those in which the host kept a processor: they are the host's."""
    worst = 0.0
    for _ in range(count):
        before, begin = serving.stolen(), time.monotonic()
        assert client.ask(GET) == STATUS
        wait = time.monotonic() - begin
        worst = max(worst, wait if serving.stolen() == before else 0.0)
    return worst


def nobody_waits_for_slow_readers():
    with served(many(MANY, 256), "--maxage", "86400") as (server, _, good):
        before = server.kilobytes("VmData")  # 1,100 of it are room for the notes of one event, touched only by what is noted.
        assert EMULATED or before < 3500, f"{before} KB for {MANY} values of 256 bytes"
        slow = [server.client() for _ in range(63)]
        for client in slow:
            client.send(b"LIST VAR su\n" * 8)
        worst = worst_wait(good, 500)
        grown = server.kilobytes("VmData") - before
        slow[7].send(b"LOGOUT\n")
        slow[7].wire.settimeout(20 * serving.SLOWER)
        got = slow[7].up_to_end()
        assert got == many_listed(MANY, 256) * 8 + b"OK Goodbye\n", len(got)
        assert 0 < worst < LONGEST, f"a good client waited {worst:.3f} s"
        assert EMULATED or grown < 24 * 64, f"{grown} KB more for 63 slow clients"


def all_that_comes_at_one_moment_is_heard():
    """Of as many clients as there may be, while a newcomer waits."""
    with served() as (server, _, good):
        clients = [good, *(server.client() for _ in range(62))]
        assert all(client.ask(GET) == STATUS for client in clients)
        with server.stopped():
            late = server.client()
            for client in clients:
                client.send(GET)
        assert all(client.line() == STATUS for client in clients)
        assert late.ask(GET) == STATUS


def report_of(size, status):
    """So many bytes of a driver, the last of which are this status."""
    last = b'SETINFO ups.status "%s"\n' % status
    left = size - len(last)
    ends = [left * part // 8 for part in range(9)]
    fill = [b'SETINFO x "' + b"2" * (end - begin - 13) + b'"\n' for begin, end in itertools.pairwise(ends)]
    return b"".join(fill) + last


def a_report_is_answered_as_many_looks_later_as_its_bytes_take():
    """A client asks once a look: each of its lines is as long as a read of it."""
    figures = []
    with served(upses=BOTH) as (server, driver, good):
        for size in (220, 500, 805, 3925):
            status = b"OB %d" % size
            with server.stopped():
                driver.send(report_of(size, status))
                good.send((GET[:-1].ljust(CLIENT_READ - 1) + b"\n") * 20)
            later = [good.line() for _ in range(20)].index(STATUS.replace(b"OL", status))
            assert later <= (size - 1) // DRIVER_READ, f"{size} bytes of a driver are answered {later} looks later"
            figures.append(f"{size} bytes {later}")
    return "looks later: " + ", ".join(figures)


def a_standing_connection_lists_without_delay():
    with served(many(1000, 10)) as (_, _, good):
        waits = []
        for _ in range(20):
            begin = time.monotonic()
            good.send(b"LIST VAR su\n")
            assert good.listing() == many_listed(1000, 10)
            waits.append(time.monotonic() - begin)
        assert sorted(waits)[10] < 0.030 * serving.SLOWER, waits


def a_client_that_half_closes_gets_all():
    with served(many(MANY, 256)) as (server, _, _):
        for _ in range(5):
            client = server.client()
            client.send(b"LIST VAR su\nVER\nLIST VAR su\nGET VAR su ups.status\n")
            client.wire.shutdown(socket.SHUT_WR)
            time.sleep(0.05)
            got = client.up_to_end()
            listed = many_listed(MANY, 256)
            assert got.startswith(listed) and got.endswith(listed + STATUS), len(got)


def a_client_that_half_closes_gets_all_whatever_follows_its_end():
    with served(many(1000, 100)) as (server, _, _):
        for end, last in [(b"LOGOUT\n" + b"VER\n" * 750, b"OK Goodbye\n"), (b"x" * 5000, b"ERR TOO-LONG\n")]:
            for _ in range(5):
                client = server.client(buffer=4096)
                client.send(b"LIST VAR su\n" + end)
                client.wire.shutdown(socket.SHUT_WR)
                time.sleep(0.2)
                got = client.up_to_end()
                assert got == many_listed(1000, 100) + last, (len(got), got[-20:])


def a_client_that_ends_between_a_look_and_a_read_gets_all():
    """It sends as much as one read takes, so that the next read finds its end while it is owed an answer."""
    narrow = BENCH.library("narrow.c")
    with served(many(1000, 100), env={**os.environ, "LD_PRELOAD": narrow, "ENDS_LATE": "1"}) as (server, _, _):
        client = server.client()
        with server.stopped():
            client.send(b"LIST VAR su\n".ljust(CLIENT_READ, b"\n"))
            client.wire.shutdown(socket.SHUT_WR)
        got = client.up_to_end()
        assert got == many_listed(1000, 100), len(got)


def a_client_that_is_not_watched_is_closed_and_its_place_is_free():
    narrow = BENCH.library("narrow.c")
    with served(env={**os.environ, "LD_PRELOAD": narrow, "WATCHED": "3", "UNWATCHED": "3"}) as (server, _, _):
        for line in (b"", GET, b"LIST VAR su\n" * 100):
            client = server.client()
            client.wire.settimeout(2.5)
            client.send(line)
            with contextlib.suppress(ConnectionResetError):
                client.up_to_end()
        others = [server.client() for _ in range(63)]
        assert all(is_answered(other, GET, STATUS) for other in others)


def sends_on(client):
    with contextlib.suppress(OSError):
        client.send(b"VER\n")


def clients_that_left_are_closed_at_their_end_or_after_two_ticks():
    with served() as (server, _, _):
        before = server.descriptors()
        clients = [server.client() for _ in range(10)]
        assert all(client.ask(b"LOGOUT\n") == b"OK Goodbye\n" for client in clients)
        assert server.descriptors() == before + 10
        for client in clients[:5]:
            client.close()
        assert comes(lambda: server.descriptors() == before + 5, 0.5)
        assert comes(lambda: sends_on(clients[9]) or server.descriptors() == before, 3.5)


def clients_that_left_and_send_without_end_are_closed():
    """After two ticks, as all are, by LOGOUT or by a line that is too long. Then there is nothing to do."""
    with served() as (server, _, _):
        before = server.descriptors()
        for text, last in ((b"LOGOUT\n", b"OK Goodbye\n"), (b"x" * CLIENT_READ, b"ERR TOO-LONG\n")):
            clients = [server.client() for _ in range(3)]
            for client in clients:
                client.send(text)
            assert all(client.line() == last for client in clients)
            with pouring(clients, b"VER\n" * 10_000):
                assert comes(lambda: server.descriptors() == before, 4), f"{server.descriptors() - before} are still read"
                worked = server.worked(1)
            assert worked < 0.1 * serving.SLOWER, f"it worked {worked:.2f} s"


def what_clients_send_after_their_end_is_read():
    with served() as (server, _, _):
        before = server.descriptors()
        early, late = server.client(), server.client()
        early.send(b"VER\nLOGOUT\n" + b"VER\n" * 100_000)
        # Its end is sent with the goodbye: its connection is closed a second later at the soonest.
        early.wire.settimeout(0.9)
        assert early.line() and early.up_to_end() == b"OK Goodbye\n"
        assert late.ask(b"LOGOUT\n") == b"OK Goodbye\n"
        time.sleep(0.2)
        late.send(b"VER\n" * 10_000)
        # Both are closed by now. A connection that is closed with unread input is reset.
        assert comes(lambda: server.descriptors() == before, 3.5)
        assert late.up_to_end() == b""
        assert not early.was_reset() and not late.was_reset()


def of_more_than_64_clients_that_left_the_oldest_are_closed():
    with served() as (server, _, _):
        before = server.descriptors()
        clients = []
        for _ in range(64):
            clients.append(server.client())
            assert clients[-1].ask(b"LOGOUT\n") == b"OK Goodbye\n"
        clients.append(server.client())
        clients[-1].send(b"LOGOUT\n" + b"VER\n" * 20_000)
        time.sleep(min(1, 0.2 * serving.SLOWER))  # they are closed after two seconds
        assert server.descriptors() <= before + 64
        assert clients[-1].up_to_end() == b"OK Goodbye\n"
        for client in clients[:-1]:
            sends_on(client)
        assert comes(clients[0].was_reset) and not any(client.was_reset() for client in clients[1:])


def a_server_that_is_asked_nothing_does_nothing():
    """Nor one with a client that fills its session with requests, and takes no answer."""
    with served(many(MANY, 256)) as (server, driver, _):
        full, gone = server.client(buffer=4096), server.client()
        full.send(b"LIST VAR su\n" * 400)
        assert gone.ask(b"LOGOUT\n") == b"OK Goodbye\n"
        opened = server.descriptors()
        assert comes(lambda: server.worked(0.2) == 0), "it goes on working"
        worked = server.worked(3)
        assert worked < 0.2 * serving.SLOWER, f"it worked {worked:.2f} s"
        assert server.descriptors() == opened - 1
        assert not select.select([driver.listener], [], [], 0)[0], "a driver that is there is connected to again"


def it_sleeps_until_something_is_due():
    """Beside a driver that only answers, it wakes to ask each third of MAXAGE, 5 s, and for the answer, not because it was read."""
    with served() as (server, driver, good):
        time.sleep(1.5)
        before, end = server.wakeups(), time.monotonic() + 10
        while (left := end - time.monotonic()) > 0:
            if select.select([driver.wire], [], [], left)[0]:
                assert driver.line() == b"PING\n"
                driver.send(b"PONG\n")
        woken = server.wakeups() - before
        assert 2 <= woken <= 5, f"it woke {woken} times"
        assert good.ask(GET) == STATUS


def nothing_due_is_slept_over():
    """Beside nobody who wakes it: a silent driver is asked each second third of MAXAGE, and its data are stale in their second."""
    with served(TWO, "--maxage", "6") as (server, driver, _):
        begin = time.monotonic()
        for number in range(1, 4):
            assert driver.line() == b"PING\n"
            assert abs(time.monotonic() - begin - 2 * number) < 1.2, number
        assert comes(lambda: "upsd: su: data stale" in server.journal(), 2), server.journal()
        assert time.monotonic() - begin < 8.2


def it_ticks_on_however_long_it_has_run():
    """A hundred years in its first second, as its record says: its driver is asked still, in each second third of MAXAGE."""
    later = {**os.environ, "LD_PRELOAD": BENCH.library("narrow.c"), "LATER": "3155760000"}
    with served(TWO, "--maxage", "3", "--record", path("later"), env=later) as (_, driver, good):
        for _ in range(3):
            assert driver.line() == b"PING\n"
            driver.send(b"PONG\n")
        assert comes(lambda: good.ask(GET) == STATUS)
        with open(path("later"), encoding="utf-8") as record:
            assert "\ntick 31557600" in record.read()


def more_clients_than_descriptors_end_nothing():
    with begun(file("alone.conf", "[su]\n"), files=20) as server:
        clients = [server.client() for _ in range(40)]
        for client in clients:
            client.wire.settimeout(0.2)
        asked = b"GET UPSDESC su\n", b'UPSDESC su "Unavailable"\n'
        answered = [client for client in clients if is_answered(client, *asked)]
        assert 5 < len(answered) < 20, len(answered)
        assert server.worked(1.5) < 0.3, "it spins"
        for client in answered:
            client.close()
        waiting = [client for client in clients if client not in answered]
        assert comes(lambda: any(is_answered(client, *asked) for client in waiting))


def is_answered(client, line, answer):
    with contextlib.suppress(OSError):
        return client.ask(line) == answer
    return False


def repeat(function, seconds):
    """Does it again and again, in a process of its own."""
    def run():
        end = time.monotonic() + seconds
        while time.monotonic() < end:
            function()

    work = multiprocessing.Process(target=run)
    work.start()
    return work


def report_on(driver, seconds):
    """A driver reports a thousand lines a second, in a process of its own."""
    begin, numbers = time.monotonic(), itertools.count()

    def report():
        driver.send(b'SETINFO battery.charge "%d"\n' % (number := next(numbers)))
        time.sleep(max(0.0, begin + number / 1000 - time.monotonic()))
    return repeat(report, seconds)


def a_driver_with_orders_at_each_moment_is_heard():
    with served(ORDERS) as (server, driver, good):
        client = server.client()
        assert client.ask(ADMIN) == b"OK\n" * 2
        begin, worst = time.monotonic(), 0.0
        busy = [report_on(driver, 4), repeat(lambda: driver.wire.recv(4096), 3.5),
                repeat(lambda: client.ask(b"SET VAR su ups.delay 30\n" * 20), 4)]  # fmt: skip
        assert comes(lambda: good.ask(b"GET VAR su battery.charge\n") != b'VAR su battery.charge "100"\n')
        while (now := time.monotonic() - begin) < 3:
            reported = int(good.ask(b"GET VAR su battery.charge\n").split(b'"')[1])
            worst = max(worst, now - reported / 1000)
            time.sleep(0.02)
        for process in busy:
            process.join()
        assert worst < 2 * LONGEST, f"what the driver reported was {worst:.3f} s old"


def nobody_waits_long_beside_busy_clients_and_drivers():
    with served(TWO, "--maxage", str(3 * serving.SLOWER), upses=BOTH) as (server, _, good):
        clients = [good, *(server.client() for _ in range(63))]
        others = [report_on(driver, 31) for driver in server.drivers]
        end, worst = time.monotonic() + 30, 0.0
        with pouring(clients[:-1], GET * 50):
            while time.monotonic() < end:
                worst = max(worst, worst_wait(clients[-1], 10))
                time.sleep(0.01)
        for other in others:
            other.join()
        assert "stale" not in server.journal(), server.journal()
    assert 0 < worst < LONGEST, f"the 64th client waited {worst:.3f} s"
    assert all(other.exitcode == 0 for other in others)
    return f"the longest wait was {worst * 1000:.1f} ms"


def traffic(server, driver, good):
    """Something of all that comes: listings, faults, newcomers, who is gone before the answer, floods of a driver and of a client."""
    for i in range(150):
        client = server.client()
        client.send(b"LIST VAR su\nGET VAR su nope\n\x00\n\"\nLOGOUT\n")
        client.up_to_end()
        client.close()
        gone = server.client()
        gone.send(b"LIST VAR su\n" * 30)
        gone.wire.recv(1000)
        gone.reset()
        driver.send(b"".join(b'SETINFO w%04d "%d"\nDELINFO w%04d\n' % (j, i, j) for j in range(40)))
        good.ask(GET * 20)
    for _ in range(10):
        client = server.client()
        client.send(b"x" * 200_000)
        assert client.up_to_end() == b"ERR TOO-LONG\n"
        client.close()


def nothing_grows():
    with served(many(500, 100)) as (server, driver, good):
        traffic(server, driver, good)
        time.sleep(0.2)
        before, open_before = server.kilobytes(), server.descriptors()
        for _ in range(4):
            traffic(server, driver, good)
        assert comes(lambda: server.descriptors() <= open_before)
        grown = server.kilobytes() - before
        assert EMULATED or grown <= 256, f"{grown} KB more"
        logs(server)


def departures(server, driver, good, times):
    """Each client stops within a listing, all values change, and it leaves: nobody else has what it was listing."""
    values = [b"".join(b'SETINFO gone.v%d "%s"\n' % (number, byte * 100) for number in range(500)) for byte in (b"x", b"y")]
    for time_ in range(times):
        client = server.client()
        client.send(b"LIST VAR su\n" * 100)
        driver.send(values[time_ % 2] + b'SETINFO gone.times "%d"\n' % time_)
        assert comes(lambda: good.ask(b"GET VAR su gone.times\n").endswith(b' "%d"\n' % time_))  # noqa: B023
        client.close()


def what_clients_held_that_left_is_freed():
    with served(many(500, 100)) as (server, driver, good):
        departures(server, driver, good, 3)
        time.sleep(0.2)
        before = server.kilobytes()
        departures(server, driver, good, 100)
        time.sleep(0.2)
        grown = server.kilobytes() - before
        assert EMULATED or grown <= 512, f"{grown} KB more"  # one in ten of them would be 600


def is_null(process, number):
    with contextlib.suppress(OSError):
        return os.readlink(f"/proc/{process}/fd/{number}") == "/dev/null"
    return False


def standard_streams_that_are_closed_are_no_sockets():
    for streams in serving.CLOSED[1:]:
        port = next(port for port in serving.PORTS if serving.is_free(port))
        words = ["serve", "--ups", file("alone.conf", "[su]\n"), "--users", path("users"), "--listen", f"127.0.0.1:{port}"]
        for program in [UPSD, *words], [DEMODRIVER, path("demo.sock")]:
            process = subprocess.Popen(serving.closing(streams, program), stdout=subprocess.PIPE, stderr=subprocess.PIPE)
            try:
                assert comes(lambda: all(is_null(process.pid, number) for number in streams), 3), (program[0], streams)  # noqa: B023
            finally:
                process.kill()
                process.communicate()


def it_starts_again_at_its_port_and_at_none_that_is_taken():
    with served() as (server, driver, good):
        words = ["--ups", path("su.conf"), "--users", path("users"), "--listen", f"127.0.0.1:{server.port}"]
        fault = f"upsd: cannot listen\nupsd: {words[-1]}: Address already in use\n"
        BENCH.faults_of_words(1, fault.encode(), "serve", *words)
        server.close()
        driver.lose()
        with begun(path("su.conf"), port=server.port) as again:
            driver.accept(TWO)
            late = again.client()
            assert comes(lambda: late.ask(GET) == STATUS)


file("users", USERS)
RESTLESS_DRIVER, SLOW_DRIVER = Driver(path("restless.sock")), Driver(path("slow.sock"))
RESTLESS = serving.Server(UPSD, file("restless.conf", f"[slow]\nsocket = {SLOW_DRIVER.path}\n[su]\nsocket = {RESTLESS_DRIVER.path}\n"),
                          "--users", path("users"), "--maxage", str(GREATER_AGE))  # fmt: skip
atexit.register(RESTLESS.close)
threading.Thread(target=come_and_go, args=(RESTLESS_DRIVER,), daemon=True).start()
BENCH.run(globals(), *sys.argv[1:])
