#!/usr/bin/env python3
"""Runs a command at a terminal of its own, for the tests of tools/terminal. Node has no such terminal.

    terminal_pty.py COLUMNS ROWS TERM COMMAND..

Requests come as lines of JSON on standard input: {"type": "keys"}, {"size": [80, 24]}, {"attributes": true}, {"hangup": true}. What happens is
written as lines of JSON: {"process": 17}, {"seen": "text"}, {"attributes": 10}, {"ended": 0}. A text has one character for each byte. The end
of the requests ends the command.
"""

import fcntl
import json
import os
import pty
import select
import signal
import struct
import sys
import termios
from typing import Dict, List, Optional


def size(terminal: int, columns: int, rows: int) -> None:
    """Sets the size of the window."""
    fcntl.ioctl(terminal, termios.TIOCSWINSZ, struct.pack("HHHH", rows, columns, 0, 0))


def say(**happened: object) -> None:
    """Writes what happened."""
    sys.stdout.write(json.dumps(happened) + "\n")
    sys.stdout.flush()


class Terminal:
    """A terminal, and the command that runs at it."""

    def __init__(self, columns: int, rows: int, term: str, command: List[str]):
        self.child, self.master = pty.fork()
        if self.child == 0:
            os.environ["TERM"] = term
            size(0, columns, rows)
            os.execvp(command[0], command)
        self.has_ended, self.is_there = False, True
        say(process=self.child)

    def obey(self, asked: Dict) -> None:
        """Does what a request asks for."""
        if "type" in asked:
            os.write(self.master, asked["type"].encode("latin-1"))
        elif "size" in asked:
            size(self.master, *asked["size"])
        elif "attributes" in asked:
            say(attributes=[list(map(str, one)) if isinstance(one, list) else one for one in termios.tcgetattr(self.master)])
        elif "hangup" in asked:
            os.close(self.master)
            self.master, self.is_there = -1, False

    def read(self) -> None:
        """Takes output of the command."""
        try:
            data = os.read(self.master, 65536)
        except OSError:
            data = b""
        if data:
            say(seen=data.decode("latin-1"))
        else:
            self.is_there = False

    def look(self) -> None:
        """Says if the command has ended: its status, or minus the signal that ended it. What it wrote before has been read."""
        if self.has_ended:
            return
        done, how = os.waitpid(self.child, os.WNOHANG)
        if done:
            while self.is_there and select.select([self.master], [], [], 0.05)[0]:
                self.read()
            self.has_ended = True
            say(ended=os.WEXITSTATUS(how) if os.WIFEXITED(how) else -os.WTERMSIG(how))

    def end(self) -> None:
        """Ends the command."""
        if not self.has_ended:
            os.kill(self.child, signal.SIGKILL)
            os.waitpid(self.child, 0)


def asked_for(rest: bytes) -> Optional[bytes]:
    """The requests that have come, after a part of one; None at their end."""
    data = os.read(0, 65536)
    return rest + data if data else None


def main() -> int:
    """Obeys requests until they end."""
    columns, rows, term, *command = sys.argv[1:]
    terminal, rest = Terminal(int(columns), int(rows), term, command), b""
    while True:
        ready = select.select([0] + [terminal.master] * terminal.is_there, [], [], 0.02 if not terminal.has_ended else None)[0]
        if 0 in ready:
            got = asked_for(rest)
            if got is None:
                terminal.end()
                return 0
            *lines, rest = got.split(b"\n")
            for line in lines:
                terminal.obey(json.loads(line))
        elif ready:
            terminal.read()
        terminal.look()


if __name__ == "__main__":
    sys.exit(main())
