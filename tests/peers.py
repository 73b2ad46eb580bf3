#!/usr/bin/python3
"""NUT's own programs against ours, a row of scripts/peers.rows each: its driver dummy-ups, upsc, upsrw, upscmd, upslog, upsmon and PyNUT
at our upsd, and our clients at its upsd. What our upsd did is recorded; the replay prints what each client and the driver was sent. NUT
is that of Debian's packages nut-server, nut-client and python3-nut; where they aren't there, nothing is checked. It listens on 127.0.0.1,
at ports that are free."""
import contextlib
import importlib.util
import os
import re
import random
import shlex
import shutil
import signal
import socket
import subprocess
import sys
import tempfile
import threading
import time
from string import Template

from replaying import built, difference, sent, text_of
from serving import Client, OtherServer, Server, comes

# Where Debian has them, by its version: all in the first folder, or the drivers in the second, the others in the third.
FOLDERS = "/lib/nut:/usr/libexec/nut:/usr/sbin"
DRIVER, UPSD, UPSMON = (shutil.which(it, path=FOLDERS) or it for it in ("dummy-ups", "upsd", "upsmon"))
# upsmon keeps its process's id in one file of the machine, whoever starts it.
MONITOR_ID = "/run/nut/upsmon.pid"
BUILT = {os.path.basename(program): program for program in built("upsd", "upsc", "upsrw", "upscmd")}
PYNUT = "import sys, PyNUT; nut = PyNUT.PyNUTClient(port=int(sys.argv[1]), login='admin', password='secret'); print(eval(sys.argv[2]))"


class Relay:
    """Stands between our upsd and its clients, or the driver that it connects to, and keeps what upsd sends on each connection."""

    def __init__(self, family, here, there):
        self.there, self.kept, self.listener = there, [], socket.socket(family)
        self.listener.bind(here)
        self.listener.listen()
        threading.Thread(target=self.accept, daemon=True).start()

    def accept(self):
        while True:
            near, far = self.listener.accept()[0], socket.socket(self.listener.family)
            far.setsockopt(socket.SOL_SOCKET, socket.SO_RCVBUF, 4096)
            self.kept.append(bytearray())
            if far.connect_ex(self.there):
                near.shutdown(socket.SHUT_WR)
            ours, theirs = (near, far) if near.family == socket.AF_UNIX else (far, near)
            for words in (ours, theirs, self.kept[-1]), (theirs, ours, bytearray()):
                threading.Thread(target=hand_on, args=words, daemon=True).start()


def hand_on(source, sink, kept):
    """What comes from the one is kept, and sent to the other if that is still there."""
    with contextlib.suppress(OSError):
        while piece := source.recv(1 << 16):
            kept += piece
            with contextlib.suppress(OSError):
                sink.sendall(piece)
        sink.shutdown(socket.SHUT_WR)


class Peers:
    def __init__(self, folder):
        self.folder, self.running, self.writes = folder, {}, 0
        for name in ("su.dev", "nu.dev", "ours.conf", "ours.users", "ours.vars", "upsd.users"):
            self.file(name, text_of(f"scripts/peers/{name}").format(folder=folder))
        os.environ.update(NUT_STATEPATH=folder, NUT_QUIET_INIT_UPSNOTIFY="true")
        self.file("relayed.conf", text_of("scripts/peers/ours.conf").format(folder=folder).replace("dummy-ups-su", "relay-su"))
        self.driver("su", "su.dev")
        self.to_driver = Relay(socket.AF_UNIX, f"{folder}/relay-su", f"{folder}/dummy-ups-su")
        self.server = self.serve("relayed.conf", "--ids", "/dev/urandom", "--record", f"{folder}/record")
        self.to_clients = Relay(socket.AF_INET, ("127.0.0.1", 0), ("127.0.0.1", self.server.port))
        self.port = self.to_clients.listener.getsockname()[1]
        self.running["idless"] = idless = self.serve("ours.conf")
        ours, pid = f"127.0.0.1:{self.port}", os.path.basename(folder)
        self.names = {"ours": ours, "su": f"su@{ours}", "idless": f"su@127.0.0.1:{idless.port}", "pid": pid}

    def file(self, name, text):
        with open(f"{self.folder}/{name}", "w", encoding="utf-8") as out:
            out.write(text)
        os.chmod(out.name, 0o700)

    def serve(self, ups, *words):
        users, texts = (f"{self.folder}/ours.{kind}" for kind in ("users", "vars"))
        return Server(BUILT["upsd"], f"{self.folder}/{ups}", "--users", users, "--vars", texts, *words)

    # The events of the rows.

    def start(self, name, *words, **env):
        with open(f"{self.folder}/{name}.log", "wb") as log:
            self.running[name] = subprocess.Popen(words, cwd=self.folder, stdin=subprocess.DEVNULL, stdout=log, stderr=log, env={**os.environ, **env})

    def end(self, name):
        ended = self.running.pop(name)
        if isinstance(ended, Server):
            ended.close()
            return
        ended.send_signal(signal.SIGCONT)
        ended.terminate()
        with contextlib.suppress(subprocess.TimeoutExpired):
            ended.wait(3)
        ended.kill()
        ended.wait()

    def send(self, name, number):
        self.running[name].send_signal(getattr(signal, number))

    def driver(self, ups, port):
        """dummy-ups for a UPS, over its file of variables or over the UPS of a server that it repeats."""
        port = f"{self.folder}/{port}" if port.endswith(".dev") else port
        self.start(f"driver-{ups}", DRIVER, "-s", ups, "-x", f"port={port}", "-i", "1", "-F", "-u", "root")

    def status(self, *words):
        """dummy-ups reads its file again when its time differs in whole seconds: each that is written has a second of its own."""
        self.writes += 1
        self.file("su.dev.new", f"ups.status: {' '.join(words)}\nbattery.charge: 40\n")
        os.utime(f"{self.folder}/su.dev.new", (self.writes, self.writes))
        os.rename(f"{self.folder}/su.dev.new", f"{self.folder}/su.dev")

    def upsmon(self, role, user, password):
        folder = f"{self.folder}/{role}"
        os.mkdir(folder)
        conf = text_of("scripts/peers/upsmon.conf").format(su=self.names["su"], user=user, password=password, role=role, folder=folder)
        self.file(f"{role}/upsmon.conf", conf)
        self.file(f"{role}/notify", f'#!/bin/sh\necho "$NOTIFYTYPE" >>{folder}/notified\n')
        self.file(f"{role}/notified", "")
        forget(MONITOR_ID)
        self.start(role, UPSMON, "-F", "-p", NUT_CONFPATH=folder)

    def crowd(self):
        """A slow reader of listings, a client that half-closes its connection, and one that sends bytes at random."""
        slow, half, hostile = (Client(self.port, buffer=4096) for _ in range(3))
        slow.send(b"LIST VAR su\n" * 4000)
        half.send(b"GET VAR su ups.status\n" * 50)
        half.wire.shutdown(socket.SHUT_WR)
        hostile.send(b"\n".join(random.Random(62).randbytes(50) for _ in range(40)) + b"\n" + b"x" * 3000)
        time.sleep(2)
        assert half.up_to_end().count(b"VAR") == 50 and hostile.up_to_end()
        assert all(slow.listing().startswith(b"BEGIN") for _ in range(4000))

    def serve_nut(self):
        server = self.running["nut"] = OtherServer([UPSD, "-F", "-u", "root"], self.folder, {"nu": 'desc = "Server room"\n'})
        self.names |= {"nuts": f"127.0.0.1:{server.port}", "nu": f"nu@127.0.0.1:{server.port}"}

    # The rows.

    def answer(self, words):
        """What a command prints, and its status. NUT's clients say on standard error that they have no certificates."""
        if words[0] == "journal":
            return f"{self.server.journal().count(words[1])} [0]"
        if words[0] == "pynut":
            words = [sys.executable, "-c", PYNUT, str(self.port), words[1]]
        words[0] = BUILT[words[0][4:]] if words[0].startswith("our-") else words[0]
        ended = subprocess.run(words, cwd=self.folder, stdin=subprocess.DEVNULL, stdout=subprocess.PIPE, stderr=subprocess.STDOUT, text=True, timeout=10, check=False)
        text = ended.stdout.replace("Init SSL without certificate database\n", "").strip("\n")
        self.names["id"] = text
        return f"{text} [{ended.returncode}]".lstrip(" ")

    def is_so(self, seconds, title, want, command):
        """Whether the command prints this in time."""
        words, got = [Template(word).substitute(self.names) for word in shlex.split(command)], []
        form = re.escape(want).replace(r"\*", ".*").replace("<id>", "[0-9a-f]{8}(?:-[0-9a-f]{4}){3}-[0-9a-f]{12}").replace(r"\$", "\n")
        well = comes(lambda: got.append(self.answer([*words])) or re.fullmatch(form, got[-1], re.DOTALL), float(seconds))
        print(f"peers: ok: {title}" if well else f"peers: FAILED: {title}\nwanted: {want}\ngot: {got[-1]}", flush=True)
        return well

    def replays(self):
        """Whether the replay of the record prints what each client and the driver was sent."""
        self.server.close()
        time.sleep(1)
        words = [*"replay --ups relayed.conf --users ours.users --vars ours.vars record".split()]
        printed = subprocess.run([BUILT["upsd"], *words], cwd=self.folder, capture_output=True, check=True).stdout
        printed = re.sub(rb"\A(?:line \d+: [^\n]*\n)*", b"", printed)
        want = b"".join(sent(f"client {n}", kept) for n, kept in enumerate(self.to_clients.kept, 1)) + sent("driver su", b"".join(self.to_driver.kept))
        well = printed.startswith(want)
        print("peers: ok: the record replays to the same bytes" if well else f"peers: FAILED: {difference(printed, want)}", flush=True)
        return well


def forget(*ids):
    """Takes away files with the ids of processes; whoever may not write there has left none."""
    for path in ids:
        with contextlib.suppress(OSError):
            os.unlink(path)


def is_monitored():
    """Whether this machine has an upsmon of its own. One that is gone may have left its id."""
    with contextlib.suppress(OSError):
        with open(MONITOR_ID, encoding="ascii") as kept, open(f"/proc/{kept.read().strip()}/comm", encoding="ascii") as name:
            return name.read() == "upsmon\n"
    return False


def why_skipped():
    programs = [DRIVER, UPSD, UPSMON, *(f"/bin/{name}" for name in ("upsc", "upsrw", "upscmd", "upslog"))]
    missing = [program for program in programs if not os.access(program, os.X_OK)]
    missing += [] if importlib.util.find_spec("PyNUT") else ["PyNUT"]
    if is_monitored():
        return "this machine has an upsmon of its own"
    return f"{missing[0]} isn't there" if missing else None


def main():
    if why := why_skipped():
        print(f"peers: skipped: {why}")
        return 0
    begun, well = time.monotonic(), []
    # One that is ended takes away what it made, too.
    signal.signal(signal.SIGTERM, lambda number, _: sys.exit(128 + number))
    with tempfile.TemporaryDirectory() as folder:
        peers = Peers(folder)
        try:
            for row in text_of("scripts/peers.rows").splitlines():
                if row.startswith("> "):
                    event, *words = (Template(word).substitute(peers.names) for word in shlex.split(row[2:]))
                    getattr(peers, event)(*words)
                elif row and not row.startswith("#"):
                    well.append(peers.is_so(*row.split("|")))
            well.append(peers.replays())
        finally:
            for name in [*peers.running]:
                peers.end(name)
            peers.server.close()
            forget(MONITOR_ID, f"/run/nut/{peers.names['pid']}.pid")
    print(f"peers: {sum(well)} of {len(well)} checks, {time.monotonic() - begun:.0f} s")
    return 0 if all(well) else 1


if __name__ == "__main__":
    sys.exit(main())
