#!/usr/bin/env python3
"""The rows of tests/answers over real sockets: drivers on Unix sockets, and each row a session over TCP.

    tests/answers.py                the built upsd; status 1 where a row isn't answered so
    tests/answers.py COMMAND ..     another server, as /lib/nut/upsd -F -u root; prints where it answers otherwise

A server is started for each table. In the words of COMMAND `{port}` is its port, and `{folder}` a folder that has the
drivers' sockets, dummy-ups-NAME, and the files of both servers; NUT's finds it by its environment.

A table is headed by a line `# TITLE`. It is about a new server to which answers/server.events happened: `su` is usable,
`ups` is stale, `off` isn't connected. A row is

    USERNAME|PASSWORD|LOGIN|LINE|ANSWER|ORDER

and a session of its own: it gives the user name and the password, and logs in to the UPS, `-` for none, each of which
OK answers; then it sends the line and takes the answer. The order is what the driver of `su` is sent for it, and may be
left out. `$` stands for an LF: a row may have several lines. A line `> EVENT` is an event of a script of `upsd replay`, and
`< LINE` a line more that the driver of `su` is sent.
"""
import concurrent.futures
import contextlib
import glob
import os
import re
import shutil
import sys
import tempfile
import time
import uuid

from replaying import HERE, built, plain, sections, text_of
from serving import Driver, OtherServer, comes, taken

OURS = ["serve", "--listen", "127.0.0.1:{port}", "--maxage", "3600", "--ups", "{folder}/upses.conf",
        "--users", "{folder}/upsd.users", "--vars", "{folder}/descriptions", "--ids", "{folder}/ids"]  # fmt: skip
ADDRESS = "192.0.2.1"
# Tables that only a script can bring about: the clock is the script's, or a driver takes nothing, whose socket takes far more than the
# 2,048 bytes that a server owes at most.
BY_SCRIPT = re.compile("grows stale|has no room|one byte too long")


class Row:
    def __init__(self, text):
        username, password, login, line, answer, *order = text.split("|")
        front = [f'USERNAME "{username}"', f'PASSWORD "{password}"', f"LOGIN {login}"]
        front = [given for given, word in zip(front, (username, password, login)) if word != "-"]
        self.text, self.lines = text, [*front, *plain(line).split("$")]
        self.answer = "OK\n" * len(front) + (plain(answer).replace("$", "\n") + "\n" if answer else "")
        self.order = "".join(plain(line) + "\n" for line in order)


def tables(path):
    """The title of each table of the file, and its rows and events."""
    return [(title, [row if row[0] in "<>" else Row(row) for row in rows]) for title, rows in sections(path).items()]


UPSES = dict(re.findall(r"\[(\w+)\]\n([^[]*)", text_of("answers/ups.conf")))
EVENTS = [f"> {event}" for event in text_of("answers/server.events").splitlines()]


class Ends:
    """A server, its drivers, and a client for each row."""

    def __init__(self, folder, command):
        self.folder, self.clients = folder, []
        self.drivers = {name: Driver(f"{folder}/dummy-ups-{name}") for name in ("su", "ups")}
        for name in ("upsd.users", "descriptions"):
            shutil.copy(f"{HERE}/answers/{name}", folder)
        open(f"{folder}/ids", "wb").close()
        os.chmod(folder, 0o700)
        self.patience = 10.0 if command[1:] == OURS else 0.3
        self.server = OtherServer(command, folder, UPSES)
        self.control = self.server.client()

    def happens(self, event):
        """The event, once the server knows of it."""
        _, verb, who, *text = event.split(" ", 3)
        line = "".join(plain(text) + "\n" for text in text).encode()
        if verb == "up":
            if who not in self.drivers:
                self.drivers[who] = Driver(f"{self.folder}/dummy-ups-{who}")
            self.drivers[who].accept()
        elif verb == "driver":
            self.drivers[who].send(line)
            assert comes(self.drivers[who].is_read)
        elif verb == "client":
            with contextlib.suppress(OSError):  # its session may have ended
                self.clients[int(who) - 1].send(line)
                self.control.ask(b"NETVER\n")  # by then it is read
                taken(self.clients[int(who) - 1].wire, None, 0.2)
        elif verb == "id":
            with open(f"{self.folder}/ids", "ab") as out:
                out.write(uuid.UUID(who).bytes)
            time.sleep(2.1)  # it is read within a second

    def differs(self, row):
        """What the row's client is answered and the driver is sent, if they are others."""
        lines, answer = (row.lines, row.answer) if row.answer else ([*row.lines, "NETVER"], "1.3\n")
        self.clients.append(self.server.client())
        self.clients[-1].send("".join(line + "\n" for line in lines).encode())
        want = answer.replace(ADDRESS, "127.0.0.1").encode(), row.order.encode()
        wires = self.clients[-1].wire, self.drivers["su"].wire
        got = tuple(taken(wire, text, self.patience) for wire, text in zip(wires, want))
        return got if got != want else None

    def rest(self):
        """What else came to somebody."""
        self.control.ask(b"NETVER\n")
        wires = [client.wire for client in self.clients] + [driver.wire for driver in self.drivers.values()]
        return b"".join(taken(wire, b"", 0) for wire in wires)

    def close(self):
        self.server.close()
        for driver in self.drivers.values():
            driver.close()


def shown(text):
    return text.decode(errors="backslashreplace").rstrip("\n").replace("\n", "$")


def differences(title, rows, command):
    """A line of each row of the table that is answered otherwise."""
    found = []
    with tempfile.TemporaryDirectory() as folder:
        ends = Ends(folder, command)
        try:
            for row in [*EVENTS, *rows]:
                if isinstance(row, str):
                    ends.happens(row)
                elif got := ends.differs(row):
                    found.append(f"{title}: {row.text}\n    {' | '.join(map(shown, filter(None, got)))}")
            if rest := ends.rest():
                found.append(f"{title}: at its end\n    {shown(rest)}")
        except (AssertionError, OSError) as fault:  # the rest of the table isn't asked
            found.append(f"{title}: {row if isinstance(row, str) else row.text}\n    {fault!r}")
        ends.close()
    return found


def main(words):
    every = [table for path in sorted(glob.glob(f"{HERE}/answers/*.rows")) for table in tables(path)]
    command = words or [*built("upsd"), *OURS]
    some = [(title, rows, command) for title, rows in every if not BY_SCRIPT.search(title)]
    count = sum(isinstance(row, Row) for _, rows, _ in some for row in rows)
    with concurrent.futures.ThreadPoolExecutor(8) as pool:
        found = [line for lines in pool.map(differences, *zip(*some)) for line in lines]
    print(*found, f"answers: {count} rows of {len(some)} tables, {len(found)} differ; {len(every) - len(some)} tables by scripts alone", sep="\n")
    return 1 if found else 0


if __name__ == "__main__":
    sys.exit(main(sys.argv[1:]))
