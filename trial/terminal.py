"""Runs a command whose standard error is a terminal, and prints what that terminal was sent, escapes spelled out.

Usage: terminal.py COMMAND [ARGUMENT..]. Standard output of the command goes to nobody; the exit status is its own.
"""

import os
import pty
import subprocess
import sys


def sent_to_terminal(command):
    """The bytes that the command sends to the terminal, and its exit status."""
    ours, theirs = pty.openpty()
    with subprocess.Popen(command, stdout=subprocess.DEVNULL, stderr=theirs) as running:
        os.close(theirs)
        pieces = []
        while True:
            try:
                piece = os.read(ours, 4096)
            except OSError:  # how a terminal says that nobody writes to it any more
                break
            if not piece:
                break
            pieces.append(piece)
    return b"".join(pieces), running.returncode


def main():
    sent, status = sent_to_terminal(sys.argv[1:])
    print(sent.decode(errors="replace").replace("\r", "\\r").replace("\x1b", "\\e"))
    return status


if __name__ == "__main__":
    sys.exit(main())
