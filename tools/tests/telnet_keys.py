#!/usr/bin/env python3
"""A terminal by telnet, for the tests of tools/timesharing: each key is sent, and what comes is shown. It ends with the connection.

    telnet_keys.py PORT

Its standard input is a terminal (terminal_pty.py). Nothing is echoed here, and no key is a signal: the program at the other end has all keys.
"""

import os
import select
import socket
import sys
import tty

IAC, DO, WILL = 255, 253, 251
ECHO, SUPPRESS = 1, 3
OPENING = bytes([IAC, WILL, ECHO, IAC, WILL, SUPPRESS, IAC, DO, SUPPRESS])     # what a system asks of a terminal at first
AGREED = bytes([IAC, DO, ECHO, IAC, DO, SUPPRESS, IAC, WILL, SUPPRESS])


def main() -> int:
    """Shows and sends until the connection ends."""
    tty.setraw(0)
    there = socket.create_connection(("127.0.0.1", int(sys.argv[1])))
    there.sendall(AGREED)
    first = b""                          # what came until it is as long as the opening, which is not shown
    while True:
        ready = select.select([0, there], [], [])[0]
        if there in ready:
            try:
                came = there.recv(65536)
            except ConnectionError:
                came = b""
            if not came:
                return 0
            if len(first) < len(OPENING):
                first += came
                came = first.replace(OPENING, b"") if len(first) >= len(OPENING) else b""
            os.write(1, came)
        if 0 in ready:
            there.sendall(os.read(0, 4096).replace(b"\r", b"\r\0"))


if __name__ == "__main__":
    sys.exit(main())
