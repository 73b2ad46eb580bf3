"""What the scripts have beside the server. By its words:

good, stale     a driver at the socket of that name, whose data come after a second, or don't come
short, endless  an odd server at a port of 127.0.0.1, which it prints; its UPS has a quote in its name, and its last answer ends or not
table FILE      a server at a port of 127.0.0.1 and ::1, which it prints. FILE, as it is when a line comes, has its answer: LINE|ANSWER,
                with \\n between lines. It ends the connection at an empty answer, and knows no other line"""
import socket
import socketserver
import sys
import time

DATA = b'SETINFO ups.status "OB LB"\nSETINFO battery.charge "9.5"\nSETINFO ups.id "a b"\nSETINFO ups.good "7"\nDUMPDONE\nDATAOK\n'
ANSWERS = {
    b"LIST UPS": b'BEGIN LIST UPS\nUPS "a\\"b" x\nEND LIST UPS\n',
    b"LIST VAR": b'BEGIN LIST VAR\nVAR a b.c "5"\nEND LIST VAR\n',
    b"GET NUML": b"NUMLOGINS a 2" + b"\n" * (sys.argv[1] == "short"),
}


class Driver(socketserver.BaseRequestHandler):
    """A server's connection to the driver."""

    def handle(self):
        time.sleep(1)
        if self.server.server_address == "good":
            self.request.sendall(DATA)
        while self.request.recv(100):
            pass


def answer(is_endless):
    """Answers one client."""
    listener = socket.create_server(("127.0.0.1", 0))
    print(listener.getsockname()[1], flush=True)
    client = listener.accept()[0]
    while line := client.recv(100):
        client.sendall(ANSWERS[line[:8]])
        while line.startswith(b"GET") and is_endless:
            client.sendall(b"x" * 1000)


class Asked(socketserver.StreamRequestHandler):
    """A client of the server with a table."""

    def handle(self):
        for line in self.rfile:
            with open(self.server.table, encoding="ascii") as table:
                answers = dict(row.rstrip("\n").split("|") for row in table)
            said = answers.get(line.decode().rstrip("\n"), "ERR UNKNOWN-COMMAND")
            if not said:
                break
            self.wfile.write(said.replace("\\n", "\n").encode() + b"\n")


class Table(socketserver.ThreadingTCPServer):
    address_family = socket.AF_INET6
    daemon_threads = True

    def server_bind(self):
        self.socket.setsockopt(socket.IPPROTO_IPV6, socket.IPV6_V6ONLY, 0)
        super().server_bind()


def main(word, table=None):
    if word in ("good", "stale"):
        socketserver.ThreadingUnixStreamServer(word, Driver).serve_forever()
    if word == "table":
        server = Table(("::", 0), Asked)
        server.table = table
        print(server.server_address[1], flush=True)
        server.serve_forever()
    answer(word == "endless")


if __name__ == "__main__":
    main(*sys.argv[1:])
