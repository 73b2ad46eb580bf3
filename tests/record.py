#!/usr/bin/env python3
"""Records of `upsd serve --record`: the replay of one prints what each client and each driver was sent, byte for byte; what a full disk
leaves; records that are masked. Words: the names of the cases, if not all are to run. A function without a parameter is a case."""
import contextlib
import os
import re
import resource
import subprocess
import sys
import time

from replaying import HERE, Bench, built, difference, sent
from serving import EMULATED, READY, TWO, comes, served

BENCH = Bench("record", *built("upsd"))
FOLDER = BENCH.folder.name
USERS = b'[admin]\npassword = "s3 cret"\nactions = SET\ninstcmds = ALL\n[mon]\npassword = pw\nupsmon primary\n'
FILES = ["--ups", f"{FOLDER}/su.conf", "--users", BENCH.file("users", USERS)]
ADMIN = b'USERNAME admin\nPASSWORD "s3 cret"\n'
GET = b"GET VAR su ups.status\n"
MIB = 1 << 20
# What a checker of memory replays in seconds. It takes memory of its own.
LONG = (1 if EMULATED else 32) * MIB


def recorded(name, reported, *words, upsd=BENCH.program):
    """A server whose record is the file of this name, its driver, which has reported this, and a good client."""
    return served(FOLDER, upsd, reported, "--record", f"{FOLDER}/{name}", *words)


def content(name):
    with open(f"{FOLDER}/{name}", "rb") as file:
        return file.read()


def drain(driver):
    """The driver reads all that it was sent, and no more of this connection."""
    driver.wire.settimeout(0.1)
    with contextlib.suppress(OSError):
        while driver.line():
            pass


def end(server, driver):
    """The server is killed once it has nothing to do. What the clients and the driver were sent, as `replay` prints it."""
    time.sleep(1)
    drain(driver)
    server.close()
    return b"".join(sent(f"client {number}", client.got) for number, client in enumerate(server.clients, 1)) + sent("driver su", driver.got)


def replays(name, want):
    """The replay of the record prints that, after what it notes of refused lines and held bytes."""
    status, printed, faults = BENCH.ends("replay", *FILES, name)
    assert (status, faults) == (0, b""), (status, faults)
    notes = re.match(rb"(line [0-9]+: [^\n]*\n)*", printed)[0]
    assert printed[len(notes):] == want, difference(printed[len(notes):], want)
    return printed


def a_record_replays_to_the_same_bytes():
    """Of orders, and a driver that restarts. Its file has an odd name, which its head has on one line. peers.py records real programs."""
    reported = TWO + b"SETFLAGS battery.charge RW STRING\nSETAUX battery.charge 8\n"
    name, begun = "ses\nsion", int(time.time())
    with recorded(name, reported, "--ids", "/dev/urandom") as (server, driver, good):
        good.ask(GET + b"LIST UPS\n\nNO SUCH\n", 5)
        assert good.ask(ADMIN + b"SET VAR su battery.charge 99\n") == b"OK\n" * 3
        assert driver.order().startswith(b"SET battery.charge")
        driver.send(b"NO SUCH LINE\n")
        time.sleep(1.2)
        drain(driver)
        driver.lose()
        driver.accept(TWO)
        assert comes(lambda: good.ask(GET).startswith(b"VAR"))
        mon = server.client()
        assert mon.ask(b"USERNAME mon\nPASSWORD pw\nLOGIN su\nLOGOUT\n") == b"OK\nOK\nOK\nOK Goodbye\n"
        mon.up_to_end()
        replays(name, end(server, driver))
    record = f"{FOLDER}/{name}"
    assert os.stat(record).st_mode & 0o777 == 0o600
    lines = content(name).split(b"\n")
    head = re.fullmatch(rb"# Voqarchay \S+ at ([0-9]+): .*/ses\\nsion --ids /dev/urandom", lines[1])
    assert lines[0] == b"maxage 15" and head and begun <= int(head[1]) <= begun + 60, lines[:2]
    verbs = {line.split(b" ")[0] for line in lines[2:-1]}
    assert verbs >= {b"up", b"down", b"driver-hex", b"driver-took", b"tick", b"open", b"client-hex", b"took", b"close", b"id"}, verbs
    # A file that exists is never written to, and the server serves.
    with recorded(name, TWO) as (server, _, good):
        assert good.ask(GET).startswith(b"VAR")
        warning = f"upsd: warning: {record}: cannot create, and nothing is recorded: File exists\n"
        assert server.journal().startswith(warning), server.journal()
    assert content(name).split(b"\n") == lines
    return f"{len(lines)} lines"


def serves_on(name, most, *words, **more):
    """After the record has ended the server answers as ever, and the journal has said so once. The record replays, except for a last line that was cut."""
    with recorded(name, TWO, *words, **more) as (server, driver, good):
        for number in range(most // 500):
            if number % 100 == 0:
                driver.send(b"PONG\n")
            assert good.ask(GET * 20).count(b"OL") == 20
        assert comes(lambda: server.journal().count("upsd: the record has ended") == 1), server.journal()
    record = content(name)
    assert abs(len(record) - most) <= 4096, len(record)
    BENCH.file("whole", record[:record.rindex(b"\n") + 1])
    printed = BENCH.ends("replay", *FILES, "whole")[1]
    fault = f"upsd: {name}:{record.count(10) + 1}: the last line was cut, and is left out\n" if record[-1:] != b"\n" else ""
    assert BENCH.ends("replay", *FILES, name) == (0, printed, fault.encode()), name
    return f"{len(record)} bytes"


def a_full_disk_ends_the_record_and_not_the_server():
    """A write fails above 64 KiB, as on a full disk."""
    upsd = BENCH.file("upsd", f"#!/bin/bash\ntrap '' XFSZ\nulimit -f 64\nexec {BENCH.program} \"$@\"\n".encode())
    os.chmod(upsd, 0o700)
    return serves_on("full", 65536, upsd=upsd)


def a_limit_ends_the_record_and_not_the_server():
    return serves_on("limited", MIB, "--record-limit", "1")


def a_record_without_a_limit_has_more_than_a_mebibyte():
    with recorded("default", TWO) as (server, driver, _):
        driver.send(b"SETINFO x %s\n" % (b"y" * 500) * (MIB // 1000))
        assert comes(driver.is_read)
        replays("default", end(server, driver))
    assert len(content("default")) > MIB, len(content("default"))


def replaying_takes_three_times_the_record_at_most():
    """One of clients that poll and drivers that report. What the system counts is this program's memory at the least."""
    turn = b"".join(b"client-hex %d %s\ntook %d 23\n" % (c, GET.hex().encode(), c) for c in (1, 2, 3)) + b"driver-hex su %s\n" % TWO.hex().encode() * 2
    head = b"up su\ndriver-hex su %s\n" % (TWO + READY).hex().encode() + b"open 192.0.2.1\n" * 3
    with open(record := f"{FOLDER}/long", "wb") as file:
        file.writelines([head, *[turn] * (LONG // len(turn))])
    with subprocess.Popen([BENCH.program, "replay", record], stdout=subprocess.PIPE) as child:
        printed = child.stdout.read()
        _, status, used = os.wait4(child.pid, 0)
        child.returncode = status
    size, most = os.path.getsize(record), used.ru_maxrss * 1024
    assert status == 0 and printed.count(b"OL") == 3 * (LONG // len(turn)), status
    assert EMULATED or most <= 3 * size, f"{most / size:.2f} times"
    return f"{most / size:.2f} times"


def a_record_has_the_greatest_age():
    """A driver is silent for longer than the default one."""
    with recorded("aged", TWO, "--maxage", "30") as (server, driver, good):
        time.sleep(18)
        assert good.ask(GET) == b'VAR su ups.status "OL"\n'
        replays("aged", end(server, driver))
    aged = content("aged")
    assert aged.startswith(b"maxage 30\n# Voqarchay "), aged[:40]
    BENCH.file("bad-age", aged.replace(b"maxage 30", b"maxage 2"))
    assert BENCH.ends("replay", *FILES, "bad-age") == (1, b"", b"upsd: bad-age:1: bad event\n")


def a_head_that_is_cut_is_not_continued():
    """The disk is full for the first write alone."""
    upsd = BENCH.file("headless", f"#!/bin/bash\ntrap '' XFSZ\nexec prlimit --fsize=40:unlimited {BENCH.program} \"$@\"\n".encode())
    os.chmod(upsd, 0o700)
    with recorded("cut", TWO, upsd=upsd) as (server, _, good):
        resource.prlimit(server.process.pid, resource.RLIMIT_FSIZE, (resource.RLIM_INFINITY, resource.RLIM_INFINITY))
        assert good.ask(GET).startswith(b"VAR")
        assert comes(lambda: server.journal().count("upsd: the record has ended") == 1), server.journal()
    assert re.fullmatch(rb"maxage 15\n# Voqarchay .{18}", content("cut")), content("cut")


SECRETS = rb"s3|cret|p\\?w\b|longer|once|AB12CD"
TYPED = [b'"PASSWORD" "s3 cret"', b"P\\ASSWORD pw", b"USERNAME longer-one", b"PASWORD s3 cret", b'PASSWORD "p\x01w"', b"GET VAR su xlonger-oney"]


def a_masked_record_replays():
    """Whatever a client typed, and without what stands in comments."""
    with open(f"{FOLDER}/users", "wb") as file:
        file.write(b'# password = once\n' + USERS.replace(b"password = p", b'"password" = p') + b"[more]\n  # password = once\npassword = longer-one\n")
    with recorded("secret", TWO + b'SETINFO device.serial "AB12CD"\n') as (server, driver, good):
        assert good.ask(ADMIN + b"GET VAR su device.serial\n", 3).endswith(b'"AB12CD"\n')
        pieces, typist = server.client(), server.client()
        pieces.send(b"USERNAME mon\nPASSW")
        time.sleep(0.1)
        assert pieces.ask(b"ORD p\\w\nLOGIN su\n", 3) == b"OK\nOK\nOK\n"
        for line in TYPED:
            typist.ask(line + b"\n")
        printed = replays("secret", end(server, driver))
    with open(f"{FOLDER}/secret", "ab") as file:
        file.write(b"took 1")
    mask = [f"{HERE}/../tools/mask", "users", "secret", "AB12CD"]
    masked = subprocess.run(mask, cwd=FOLDER, check=True, capture_output=True)
    assert masked.stderr == b"mask: secret: the last line was cut, and is left out\n", masked.stderr
    status, again, faults = BENCH.ends("replay", *FILES[:3], "users.masked", "secret.masked")
    assert (status, faults) == (0, b"") and b"aaaaaa" in again, (status, faults)
    assert again == printed.replace(b"AB12CD", b"aaaaaa"), difference(again, printed)
    text = b"".join(bytes.fromhex(digits.decode()) for digits in re.findall(rb"-hex \w+ (\w+)", content("secret.masked")))
    assert not re.search(SECRETS, text + content("users.masked")), re.search(SECRETS, text + content("users.masked"))
    # What it can't do it says.
    bad = BENCH.file("bad", b"client-hex 1 4\n")
    for words, fault in [(["users", "secret"], "users.masked: File exists"), (["users", "absent"], "absent: No such file or directory"),
                         (["users", bad], f"{bad}:1: no line of a record")]:  # fmt: skip
        ended = subprocess.run([mask[0], *words], cwd=FOLDER, check=False, capture_output=True, text=True)
        assert (ended.returncode, ended.stderr.splitlines()[-1]) == (1, f"mask: {fault}"), ended
    ended = subprocess.run([mask[0], "users"], check=False, capture_output=True, text=True)
    assert (ended.returncode, ended.stderr) == (2, "usage: mask USERS RECORD [VALUE..]\n"), ended


WORDS = [b"upsmon", b"primary", b"password", b"actions", b"SET", b"su", b"LOGIN", b"mon", b"OK", b"aaaaaaaa", b"a"]


def a_password_that_is_a_word_is_masked():
    """As the password of the file and of the session; where it is another word, both stay what they are, and the replay too."""
    for number, word in enumerate(WORDS):
        users = BENCH.file(f"users-{number}", b"[mon]\npassword = %s\nactions = SET\nupsmon primary\n" % word)
        typed = b"USERNAME mon\nPASSWORD %s\nLOGIN su\nSET VAR su x 1\nGET VAR su ups.status\nBAD %s\n" % (word, word)
        record = BENCH.file(f"record-{number}", b"up su\ndriver-hex su %s\nopen 192.0.2.1\nclient-hex 1 %s\ntook 1 all\n" % ((TWO + READY).hex().encode(), typed.hex().encode()))
        ended = subprocess.run([f"{HERE}/../tools/mask", users, record], capture_output=True, text=True, check=True)
        staying = word in WORDS[4:8]
        assert ended.stderr == f"mask: {users}:2: this password stays where it is a word of the record: change it\n" * staying, (word, ended.stderr)
        printed = BENCH.ends("replay", "--users", users, record)
        assert printed[0] == 0 and printed[1].count(b"OK\n") >= 3, printed
        assert BENCH.ends("replay", "--users", f"{users}.masked", f"{record}.masked") == printed, word
        masked, sent_line = content(f"users-{number}.masked"), content(f"record-{number}.masked").split(b"\n")[3]
        text = bytes.fromhex(sent_line.split(b" ")[2].decode())
        assert b"password = %s\n" % word not in masked and masked.startswith(b"[mon]\npassword = "), masked
        assert b"PASSWORD %s\n" % word not in text and (b"BAD %s\n" % word in text) == staying, text


BENCH.run(globals(), *sys.argv[1:])
