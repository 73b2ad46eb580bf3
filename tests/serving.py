"""Servers on real sockets, the built one or another, with their drivers and clients."""
import array
import contextlib
import ctypes
import fcntl
import itertools
import os
import random
import re
import resource
import select
import signal
import socket
import struct
import subprocess
import tempfile
import termios
import time

# Under an emulator (arm64/test) or a checker of memory (tools/test_try), memory and waits are its own: what has to
# come gets so many times the time.
EMULATED = "EMULATED" in os.environ
SLOWER = int(os.environ.get("EMULATED", 1))
READY = b"DUMPDONE\nDATAOK\n"
TWO = b'SETINFO ups.status "OL"\nSETINFO battery.charge "100"\n'


def comes(holds, seconds=10.0):
    """Whether it holds in time."""
    end = time.monotonic() + seconds * SLOWER
    while not holds():
        if time.monotonic() > end:
            return False
        time.sleep(0.02)
    return True


def stolen():
    """How much of the processors the host of this machine has kept for others, in hundredths of a second."""
    with open("/proc/stat", encoding="utf-8") as stat:
        return int(stat.readline().split()[8])


def taken(wire, want, patience):
    """What comes, as long as it isn't what is wanted, and something comes in time."""
    got = b""
    with contextlib.suppress(ConnectionResetError):
        while select.select([wire], [], [], 0 if got == want else patience)[0] and (piece := wire.recv(1 << 16)):
            got += piece
    return got


class Driver:
    """A UPS's driver, which the server connects to."""

    def __init__(self, path):
        self.path, self.got = path, b""
        self.listener = socket.socket(socket.AF_UNIX)
        self.listener.bind(path)
        self.listener.listen(8)
        self.listener.settimeout(10 * SLOWER)

    def accept(self, reported=None):
        """The server connects, and asks for all; the driver reports this."""
        self.wire = self.listener.accept()[0]
        self.wire.settimeout(10 * SLOWER)
        self.lines = self.wire.makefile("rb")
        assert self.line() == b"DUMPALL\n"
        if reported is not None:
            self.wire.sendall(reported + READY)
        return self

    def send(self, text):
        self.wire.sendall(text)

    def is_read(self):
        """The server has read all that was sent."""
        unread = array.array("i", [0])
        fcntl.ioctl(self.wire, termios.TIOCOUTQ, unread)
        return unread[0] == 0

    def line(self):
        line = self.lines.readline()
        self.got += line
        return line

    def order(self):
        """The next line but PING."""
        return next(line for line in iter(self.line, None) if line != b"PING\n")

    def lose(self):
        self.lines.close()
        self.wire.close()

    def close(self):
        with contextlib.suppress(AttributeError, OSError):
            self.lose()
        self.listener.close()
        os.unlink(self.path)


class Client:
    """A client of the server."""

    def __init__(self, port, source="127.0.0.1", buffer=None):
        self.wire = socket.socket()
        self.wire.settimeout(10 * SLOWER)
        if buffer:
            self.wire.setsockopt(socket.SOL_SOCKET, socket.SO_RCVBUF, buffer)
        self.wire.bind((source, 0))
        self.wire.connect(("127.0.0.1", port))
        self.got, self.kept = bytearray(), b""

    def send(self, text):
        self.wire.sendall(text)

    def recv(self):
        piece = self.wire.recv(1 << 16)
        self.got += piece
        return piece

    def line(self):
        while b"\n" not in self.kept:
            piece = self.recv()
            if not piece:
                return self.kept
            self.kept += piece
        line, _, self.kept = self.kept.partition(b"\n")
        return line + b"\n"

    def ask(self, text, count=None):
        """The answers to the lines, each of one line, or of so many in all."""
        self.send(text)
        return b"".join(self.line() for _ in range(text.count(b"\n") if count is None else count))

    def up_to_end(self):
        """All that is still to come. A connection that is reset is a fault."""
        return b"".join([self.kept, *iter(self.recv, b"")])

    def listing(self):
        lines = [self.line()]
        while not lines[-1].startswith((b"END LIST", b"ERR")):
            lines.append(self.line())
        return b"".join(lines)

    def close(self):
        self.wire.close()

    def was_reset(self):
        return self.wire.getsockopt(socket.SOL_SOCKET, socket.SO_ERROR) != 0

    def reset(self):
        self.wire.setsockopt(socket.SOL_SOCKET, socket.SO_LINGER, struct.pack("ii", 1, 0))
        self.wire.close()


def refuse_to_wait():
    """From now on the system refuses this process to wait for events: a filter of its calls (seccomp(2)) answers EPERM."""
    first, second = {"x86_64": (232, 281), "aarch64": (22, 22)}[os.uname().machine]
    load, equal, answer = 0x20, 0x15, 0x06
    lines = [(load, 0, 0, 0), (equal, 1, 0, first), (equal, 0, 1, second), (answer, 0, 0, 0x50001), (answer, 0, 0, 0x7FFF0000)]
    held = ctypes.create_string_buffer(b"".join(struct.pack("HBBI", *line) for line in lines))
    prctl, new_privileges, seccomp, by_filter = ctypes.CDLL(None).prctl, 38, 22, 2
    assert prctl(new_privileges, 1, 0, 0, 0) == 0 == prctl(seccomp, by_filter, struct.pack("HP", len(lines), ctypes.addressof(held)))


class Server:
    """The built server with these words, at a port that the system gives, and its clients, which are closed with it."""

    def __init__(self, upsd, ups, *words, port=0, files=None, env=None, errors=None):
        limit = (lambda: resource.setrlimit(resource.RLIMIT_NOFILE, (files, files))) if files else None
        self.clients, self.errors = [], errors or tempfile.TemporaryFile()
        self.process = subprocess.Popen([upsd, "serve", "--ups", ups, "--listen", f"127.0.0.1:{port}", *words],
                                        stdout=subprocess.PIPE, stderr=self.errors, preexec_fn=limit, env=env)  # fmt: skip
        ready, _, _ = select.select([self.process.stdout], [], [], 10)
        assert ready, "it didn't say that it listens"
        line = self.process.stdout.readline().decode()
        assert line.startswith("upsd: listening on 127.0.0.1:"), line
        self.port = int(line.rsplit(":", 1)[1])

    def client(self, source="127.0.0.1", buffer=None):
        self.clients.append(Client(self.port, source, buffer))
        return self.clients[-1]

    def journal(self):
        """What it has logged but for its start."""
        return re.sub(r"^(<6>)?upsd: started: .*\n", "", self.whole_journal(), count=1, flags=re.MULTILINE)

    def whole_journal(self):
        return os.pread(self.errors.fileno(), 1 << 20, 0).decode()

    def kilobytes(self, kind="VmRSS"):
        with open(f"/proc/{self.process.pid}/status", encoding="utf-8") as status:
            return int(next(line for line in status if line.startswith(kind)).split()[1])

    def fields(self):
        """What the system says of the process, from its state on."""
        with open(f"/proc/{self.process.pid}/stat", encoding="utf-8") as stat:
            return stat.read().rsplit(")", 1)[1].split()

    def began(self):
        """When it did, by the clock since the boot."""
        return int(self.fields()[19]) / os.sysconf("SC_CLK_TCK")

    def seconds_of_work(self):
        return (int(self.fields()[11]) + int(self.fields()[12])) / os.sysconf("SC_CLK_TCK")

    def worked(self, seconds):
        """How much it works in so many seconds."""
        before = self.seconds_of_work()
        time.sleep(seconds)
        return self.seconds_of_work() - before

    @contextlib.contextmanager
    def stopped(self):
        """While the block runs, it stands still. It waited for events before."""
        assert comes(lambda: self.fields()[0] == "S")
        self.process.send_signal(signal.SIGSTOP)
        assert comes(lambda: self.fields()[0] == "T")
        yield
        self.process.send_signal(signal.SIGCONT)

    def wakeups(self):
        """How often it has waited."""
        with open(f"/proc/{self.process.pid}/status", encoding="utf-8") as status:
            return int(next(line for line in status if line.startswith("voluntary")).split()[1])

    def descriptors(self):
        return len(os.listdir(f"/proc/{self.process.pid}/fd"))

    def close(self):
        self.process.kill()
        self.process.wait()
        self.process.stdout.close()
        for client in self.clients:
            client.close()


def pour(wires, text, begins):
    """Sends the text on each of these connections on and on, and reads what comes. It closes that pipe once it has begun on each."""
    sent = dict.fromkeys(wires, 0)
    while True:
        readable, writable, _ = select.select(wires, wires, [])
        for wire in writable:
            sent[wire] += wire.send(text[sent[wire] % len(text) :])
        for wire in readable:
            wire.recv(1 << 16)
        if begins and all(sent.values()):
            begins = os.close(begins)


@contextlib.contextmanager
def pouring(peers, text):
    """While the block runs another process pours the text over the connections of these peers."""
    begun, begins = os.pipe()
    if (child := os.fork()) == 0:
        try:
            pour([it.wire for it in peers], text, begins)
        finally:
            os._exit(1)
    os.close(begins)
    os.read(begun, 1)
    os.close(begun)
    try:
        yield
    finally:
        os.kill(child, signal.SIGKILL)
        os.waitpid(child, 0)


CLOSED = [[number for number in range(3) if some >> number & 1] for some in range(8)]  # which standard streams are


def closing(streams, words):
    """The words of a program that begins without these standard streams."""
    return ["sh", "-c", f'exec "$0" "$@" {" ".join(f"{number}>&-" for number in streams)}', *words]


PORTS = itertools.count(random.randrange(16_384, 32_000))  # below those that the system gives


def is_free(port):
    with contextlib.suppress(OSError), socket.create_server(("127.0.0.1", port)):
        return True
    return False


class OtherServer(Server):
    """Any server. In its words `{port}` is its port, and `{folder}` a folder with the files of ours and of NUT's."""

    def __init__(self, words, folder, upses, max_age=3600):
        """Of each UPS the list has what its section says beside its driver, the socket dummy-ups-NAME in the folder."""
        self.port = next(port for port in PORTS if is_free(port))
        for file, text in {
                "upses.conf": "".join(f"[{ups}]\n{more}socket = {folder}/dummy-ups-{ups}\n" for ups, more in upses.items()),
                "ups.conf": "".join(f"[{ups}]\n{more}driver = dummy-ups\nport = x\n" for ups, more in upses.items()),
                "upsd.conf": f"LISTEN 127.0.0.1 {self.port}\nMAXAGE {max_age}\nMAXCONN 128\n"}.items():  # fmt: skip
            with open(f"{folder}/{file}", "w", encoding="utf-8") as out:
                out.write(text)
        self.clients, self.errors = [], tempfile.TemporaryFile()
        words = [word.format(folder=folder, port=self.port, max_age=max_age) for word in words]
        paths = {f"NUT_{path}": folder for path in ("CONFPATH", "STATEPATH", "ALTPIDPATH")}
        self.process = subprocess.Popen(words, stdout=subprocess.PIPE, stderr=self.errors, env={**os.environ, **paths})
        assert comes(self.listens, 30), self.journal()

    def listens(self):
        with contextlib.suppress(OSError), socket.create_connection(("127.0.0.1", self.port)):
            return True
        return False


@contextlib.contextmanager
def served(folder, upsd, reported=TWO, *words, upses=("su",), env=None, errors=None):
    """A server over these UPSs, the driver of the last one, and a good client. Each driver has reported this."""
    with contextlib.ExitStack() as stack:
        drivers = {it: stack.enter_context(contextlib.closing(Driver(os.path.join(folder, f"{it}.sock")))) for it in upses}
        ups = os.path.join(folder, "su.conf")
        with open(ups, "w", encoding="utf-8") as out:
            out.writelines(f'[{it}]\ndesc = "Rack 1"\nsocket = {driver.path}\n' for it, driver in drivers.items())
        server = Server(upsd, ups, "--users", os.path.join(folder, "users"), *words, env=env, errors=errors)
        stack.callback(server.close)
        server.drivers = [driver.accept(reported) for driver in drivers.values()]
        good = server.client()
        for it in upses:
            assert comes(lambda: good.ask(b"GET VAR %s ups.status\n" % it.encode()).startswith(b"VAR"))  # noqa: B023
        yield server, server.drivers[-1], good
