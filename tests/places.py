#!/usr/bin/env python3
"""Who has the 64 places of the built upsd: silence, who gives way, places that are kept, several addresses. The clock and the
addresses of newcomers are handed in (narrow.c). Words: the names of the cases, if not all are to run."""
import contextlib
import functools
import os
import re
import socket
import subprocess
import sys
import time

import serving
from replaying import Bench, built
from serving import Driver, comes

(UPSD,) = built("upsd")
BENCH = Bench("places", UPSD)
FOLDER = BENCH.folder.name
NARROW = BENCH.library("narrow.c")
CLOCK = os.path.join(FOLDER, "clock")
USERS = b"[mon]\npassword = pw\nupsmon secondary\n[admin]\npassword = pw\ninstcmds = ALL\nupsmon primary\n"
MON, ADMIN = b"USERNAME mon\nPASSWORD pw\n", b"USERNAME admin\nPASSWORD pw\n"
ASK, ANSWER = b"GET UPSDESC su\n", b'UPSDESC su "Rack 1"\n'
HERE, ELSEWHERE = "127.0.0.1", "127.7.0.{}"
MANY = b'SETINFO ups.status "OL"\n' + b"".join(b'SETINFO v%04d "%s"\n' % (i, b"x" * 200) for i in range(1000))
COMMAND = b'SETINFO ups.status "OL"\nADDCMD shutdown.stop\nADDCMD beeper.mute\n'
START = [0.0]  # of the server
BENCH.file("users", USERS)
served = functools.partial(serving.served, FOLDER, UPSD)


def go_to(second):
    """The clock of the server is in the middle of this second after its start."""
    elapsed = time.clock_gettime(time.CLOCK_BOOTTIME) - START[0] if second else 0
    with open(CLOCK + ".new", "w", encoding="utf-8") as out:
        out.write(str(max(0, int((second - elapsed) * 1000) + 500)))
    os.replace(CLOCK + ".new", CLOCK)


@contextlib.contextmanager
def begun(*words, reported=serving.TWO, **more):
    """A server with a clock of its own, its driver, and a good client of this machine."""
    go_to(0)
    env = {**os.environ, "LD_PRELOAD": NARROW, "CLOCK": CLOCK, "ELSEWHERE": "1", **more}
    with served(reported, *words, env=env) as all_of_it:
        START[0] = all_of_it[0].began()
        yield all_of_it


def is_served(client):
    """It is answered, and not sent away."""
    with contextlib.suppress(OSError):
        return client.ask(ASK) == ANSWER
    return False


def crowd(server, count, source=HERE):
    clients = [server.client(source) for _ in range(count)]
    assert all(is_served(client) for client in clients)
    return clients


def logged(server, line):
    assert comes(lambda: re.search(f"^upsd: {line}$", server.journal(), re.M)), (line, server.journal())


def where_all_are_silent_a_newcomer_is_let_in_after_a_minute():
    """With and without an idle limit: before it is sent away. Who was silent longest gives way, and nobody else."""
    with begun() as (server, _, good):
        first, others = crowd(server, 1), crowd(server, 62)
        go_to(40)
        assert all(is_served(client) for client in [good, *others])
        go_to(57)
        assert not is_served(server.client())
        go_to(65)
        assert is_served(server.client())
        assert comes(lambda: not is_served(first[0]))
        logged(server, "127.0.0.1 gave way to 127.0.0.1 after 6[0-9] s of silence")
        assert all(is_served(client) for client in [good, *others])
        assert not is_served(server.client())
        assert comes(lambda: server.journal().count("sent away: 127.0.0.1: ") == 1), server.journal()
        go_to(128)
        assert is_served(good)
        logged(server, "sent away: 127.0.0.1: 1")


def the_address_with_most_places_gives_way():
    """And of two that are as silent the one whose address has more."""
    with begun() as (server, _, good):
        few, many = crowd(server, 3, ELSEWHERE.format(1)), crowd(server, 60, ELSEWHERE.format(2))
        go_to(70)
        assert is_served(good) and is_served(many[0])
        for _ in range(5):
            assert is_served(server.client(ELSEWHERE.format(3)))
        logged(server, "10.7.0.2 gave way to 10.7.0.3 after [67][0-9] s of silence")
        assert "10.7.0.1 gave way" not in server.journal()
        assert all(is_served(client) for client in [good, *few, many[0]])
        assert sum(is_served(client) for client in many) == 55


def three_quarters_are_told_with_the_address_that_has_most():
    with begun() as (server, _, good):
        crowd(server, 12, ELSEWHERE.format(1))
        crowd(server, 34, ELSEWHERE.format(2))
        go_to(5)
        assert is_served(good)
        assert "places are taken" not in server.journal()
        crowd(server, 1, ELSEWHERE.format(1))
        for second in 10, 20, 3000:
            go_to(second)
            assert is_served(good)
        logged(server, "48 of 64 places are taken, 34 by 10.7.0.2")
        assert server.journal().count("places are taken") == 1
        go_to(3700)
        assert is_served(good)
        assert comes(lambda: server.journal().count("places are taken") == 2), server.journal()


def who_asks_each_58_seconds_stays():
    """64 clients, with an idle limit of a minute, for ten minutes."""
    with begun("--idle", "60") as (server, driver, good):
        clients = [good, *crowd(server, 63)]
        for minute in range(1, 11):
            go_to(58 * minute)
            driver.send(b"PONG\n")
            assert all(is_served(client) for client in clients), minute
        assert "silent" not in server.journal()


def a_login_of_a_machine_that_vanished_is_gone():
    """After a minute, and no sooner. What it asked while the server stood still is answered first."""
    with begun("--idle", "60") as (server, _, good):
        dead, other = server.client("127.0.0.2"), server.client("127.0.0.3")
        assert dead.ask(MON + b"LOGIN su\n") == b"OK\n" * 3
        assert other.ask(MON) == b"OK\n" * 2
        go_to(58)
        assert good.ask(b"GET NUMLOGINS su\n") == b"NUMLOGINS su 1\n"
        go_to(65)
        assert comes(lambda: good.ask(b"GET NUMLOGINS su\n") == b"NUMLOGINS su 0\n")
        logged(server, "su: mon@127.0.0.2 logged out: it was silent")
        logged(server, "127.0.0.2 silent for 60 s: closed")
        logged(server, "127.0.0.3 silent for 60 s: closed")
        assert dead.up_to_end() == b"" and other.up_to_end() == b""
        # Nobody is ended whose request waits, however long the server stood still.
        with server.stopped():
            good.send(ASK)
            go_to(500)
        assert good.line() == ANSWER and is_served(good)


def it_wakes_to_end_who_is_silent():
    """Though nothing else is due, and nobody asks: one second after it may be."""
    with begun("--idle", "30", "--maxage", "86400") as (server, driver, good):
        go_to(28)
        assert is_served(good)
        go_to(55)
        driver.send(b"PONG\n")  # the server waits for the 58th second from now on
        waits = server.wakeups()
        assert good.up_to_end() == b""
        assert server.wakeups() - waits < 12, server.wakeups() - waits


def a_reader_that_takes_some_each_50_seconds_gets_all():
    """In ten minutes, with an idle limit of a minute; and one that takes none is gone, though it is owed the rest."""
    with begun("--idle", "60", reported=MANY, BUFFER="4096") as (server, driver, good):
        reader, stopped = server.client(buffer=4096), server.client(buffer=4096)
        for client in reader, stopped:
            client.send(b"LIST VAR su\n")
        got = reader.wire.recv(1)
        for step in range(1, 13):
            go_to(50 * step)
            driver.send(b"PONG\n")
            assert is_served(good)
            taken = 0
            while taken < 8192:
                piece = reader.wire.recv(1024)
                got, taken = got + piece, taken + len(piece)
            assert comes(lambda: is_served(good))
        while not got.endswith(b"END LIST VAR su\n"):
            piece = reader.wire.recv(1 << 16)
            assert piece, len(got)
            got += piece
        assert len(got) > 200_000, len(got)
        logged(server, "127.0.0.1 silent for 60 s: closed")
        assert server.journal().count("silent for 60 s") == 1, server.journal()


def places_are_kept_for_this_machine():
    """The 61st from elsewhere is sent away; of this machine four more get in, and no fifth."""
    with begun("--keep-places", "4") as (server, _, good):
        elsewhere = crowd(server, 59, ELSEWHERE.format(1))
        assert not is_served(server.client(ELSEWHERE.format(2)))
        logged(server, "sent away: 10.7.0.2: 1")
        crowd(server, 4)
        assert not is_served(server.client()) and not is_served(server.client(ELSEWHERE.format(2)))
        assert all(is_served(client) for client in [good, *elsewhere])
        # Of those that are silent for a minute one gives way, to whom it may be.
        go_to(65)
        assert is_served(server.client(ELSEWHERE.format(2))) and is_served(server.client())


def a_client_that_still_reads_is_not_closed_for_others_that_left():
    """64 others say LOGOUT, and stay; it reads its last 200 KB after them."""
    with begun(reported=MANY, BUFFER="300000") as (server, _, good):
        reader = server.client(ELSEWHERE.format(1), buffer=4096)
        reader.send(b"LIST VAR su\nLOGOUT\n")
        assert comes(lambda: b"BEGIN" in reader.wire.recv(4096, socket.MSG_PEEK))
        for _ in range(70):
            other = server.client(ELSEWHERE.format(2))
            assert other.ask(b"LOGOUT\n") == b"OK Goodbye\n"
        assert is_served(good)
        reader.send(b"VER\n")
        got = reader.up_to_end()
        assert got.endswith(b"END LIST VAR su\nOK Goodbye\n"), (len(got), got[-50:])


def what_may_cut_a_load_or_fail_to_is_a_warning():
    """An order with an empty value, and a refused right of a machine's `upsmon`."""
    with begun("--priorities", reported=COMMAND) as (server, driver, good):
        assert good.ask(ADMIN + b'INSTCMD su shutdown.stop ""\nINSTCMD su beeper.mute\n') == b"OK\n" * 4
        assert driver.order() == b'INSTCMD shutdown.stop ""\n'
        other = server.client()
        assert other.ask(MON + b"FSD su\nPRIMARY su\nLOGIN sv\nINSTCMD su beeper.mute\n").count(b"ERR") == 4
        for level, line in [
                (4, "su: admin@127.0.0.1 ordered INSTCMD shutdown.stop with an empty value"),
                (5, "su: admin@127.0.0.1 ordered INSTCMD beeper.mute"),
                (4, "su: mon@127.0.0.1 was refused FSD: ACCESS-DENIED"),
                (4, "su: mon@127.0.0.1 was refused PRIMARY: ACCESS-DENIED"),
                (4, "sv: mon@127.0.0.1 was refused LOGIN: UNKNOWN-UPS"),
                (6, "su: mon@127.0.0.1 was refused INSTCMD beeper.mute: ACCESS-DENIED")]:
            assert comes(lambda: f"<{level}>upsd: {line}\n" in server.journal()), (line, server.journal())  # noqa: B023


def ids_are_refilled_at_a_tick():
    """A user who takes all 64 keeps nobody from an order for longer than a second; without it for a minute."""
    order = b"INSTCMD su beeper.mute\n"
    for words, is_refilled in [((), False), (("--refill-ids",), True)]:
        with begun("--ids", "/dev/urandom", *words, reported=COMMAND) as (_, driver, good):
            assert good.ask(ADMIN + b"SET TRACKING ON\n").endswith(b"OK\n")
            assert [good.ask(order)[:11] for _ in range(64)] == [b"OK TRACKING"] * 64
            assert [driver.order()[:11] for _ in range(64)] == [b"INSTCMD bee"] * 64
            go_to(4)
            answers = [good.ask(order)[:11] for _ in range(60)]
            assert (answers == [b"OK TRACKING"] * 60) == is_refilled, (words, answers)


def several_addresses_are_listened_at():
    """Each has its line, in order, and is served; the first that can't be had ends the start."""
    words = ["serve", "--ups", BENCH.file("list", b"[su]\ndesc = \"Rack 1\"\n"), "--users", os.path.join(FOLDER, "users")]
    addresses = [f"127.0.0.{number}:0" for number in range(1, 8)] + ["[::1]:0"]
    listens = [word for address in addresses for word in ("--listen", address)]
    with subprocess.Popen([UPSD, *words, *listens], stdout=subprocess.PIPE, stderr=subprocess.DEVNULL, text=True) as process:
        try:
            lines = [process.stdout.readline() for _ in addresses]
            for address, line in zip(addresses, lines):
                host = address.rsplit(":", 1)[0]
                assert line.startswith(f"upsd: listening on {host}:"), lines
                wire = socket.create_connection((host.strip("[]"), int(line.rsplit(":", 1)[1])), 10)
                wire.sendall(ASK)
                assert wire.recv(100) == ANSWER
                wire.close()
        finally:
            process.kill()
    status, out, faults = BENCH.ends(*words, "--listen", "127.0.0.1:0", "--listen", "192.0.2.7:1", "--listen", "192.0.2.8:1", "--explain")
    wanted = b"upsd: cannot listen\nupsd: 192.0.2.7:1: Cannot assign requested address\n"
    assert (status, out, faults) == (1, b"", wanted), faults
    assert BENCH.ends(*words, *listens, "--listen", "127.0.0.1:0")[0] == 2


def clients_of_one_network_share_a_count():
    """Of 70 addresses of a /64 (IPv6) eight lines are logged in a second. A client of another network has its own."""
    with begun() as (server, *_):
        for number in range(1, 71):
            client = server.client(f"127.8.0.{number}")
            assert client.ask(b"LOGIN su\n" * 2).count(b"ERR ") == 2
            client.close()
        assert server.client(ELSEWHERE.format(9)).ask(b"LOGIN su\n").startswith(b"ERR ")
        logged(server, "su: 10.7.0.9 was refused LOGIN: USERNAME-REQUIRED")
        go_to(70)
        logged(server, r"more lines of 2001:0db8:0000:0001::/64: \d+ refused LOGIN")
        named = len(re.findall("2001:db8:0:1::[0-9a-f]+ was refused LOGIN", server.journal()))
        counted = map(int, re.findall(r"0001::/64: (\d+) refused LOGIN", server.journal()))
        assert named <= 20 and named + sum(counted) == 140, server.journal()


def words_are_within_their_limits():
    words = ["serve", "--ups", os.path.join(FOLDER, "list"), "--users", os.path.join(FOLDER, "users")]
    BENCH.file("list", b"[su]\n")
    for more in [("--idle", "29"), ("--idle", "86401"), ("--keep-places", "64"), ("--idle", "x")]:
        BENCH.refuses_words(*words, *more)


BENCH.run(globals(), *sys.argv[1:])
