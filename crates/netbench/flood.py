"""A driver that never pauses, for netbench to measure a server beside it.

Its word is the path of its Unix socket. Once a server has connected to it, it reports `ups.status` and 100 variables, and
then those variables again and again, each time with another value. When the server is gone, it prints how many lines it
has sent a second.
"""
import socket
import sys
import time

STATUS = b'SETINFO ups.status "OL"\n'
VARIABLES = 100


def reports(value):
    """What is reported of all variables, of which each has this value."""
    return b"".join(b'SETINFO v%04d "%s"\n' % (number, value) for number in range(VARIABLES))


def flood(driver):
    """Reports until the server is gone. Answers how many times each variable was reported."""
    first, second, times = reports(b"1" * 10), reports(b"2" * 10), 0
    try:
        driver.sendall(STATUS + first + b"DUMPDONE\nDATAOK\n")
        while True:
            driver.sendall(second + first)
            times += 2
    except (BrokenPipeError, ConnectionResetError):
        return times


def main(path):
    listener = socket.socket(socket.AF_UNIX)
    listener.bind(path)
    listener.listen(1)
    driver = listener.accept()[0]
    start = time.monotonic()
    lines = flood(driver) * VARIABLES
    print(f"{lines / (time.monotonic() - start):.0f} lines a second")


main(sys.argv[1])
