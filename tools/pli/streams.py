"""What the tool writes, and what ends it: a trouble, told in one line, or a signal."""
import errno
import os
import signal
from contextlib import suppress


class Trouble(Exception):
    """What ends the tool with one line and a status: 2 for its words and files, 3 for the workbench and the output."""

    def __init__(self, message, status=3):
        super().__init__(message)
        self.status = status


class Stopped(BaseException):
    """A signal that ends the tool, with its number."""


def put(descriptor, data):
    """Writes all of some bytes."""
    left = memoryview(data)
    while left:
        left = left[os.write(descriptor, left) :]


def show(data):
    """Writes bytes to standard output, and keeps the last of them."""
    try:
        put(1, data)
    except OSError as error:
        raise Trouble(f"standard output: {error.strerror}") from None
    show.last = data[-1:] or show.last


show.last = b"\n"


def end_line():
    """Ends a line of standard output that is begun."""
    with suppress(Trouble):
        show(b"" if show.last == b"\n" else b"\n")


def tell(message):
    """Writes a line to standard error; where nobody takes it, nothing is left to be said."""
    with suppress(OSError):
        put(2, message.encode("utf-8", "surrogateescape") + b"\n")


def handle_signals(handler):
    """Says what signals do from here on, but where they are ignored already."""
    for each in (signal.SIGINT, signal.SIGTERM, signal.SIGHUP):
        if signal.getsignal(each) != signal.SIG_IGN:
            signal.signal(each, handler)


def prepare():
    """Makes sure of the three streams, so that no file takes the place of one, and of signals."""

    def stopped(number, _):
        raise Stopped(number)

    handle_signals(stopped)
    closed = {os.open(os.devnull, os.O_RDWR) for each in range(3) if not os.path.exists(f"/dev/fd/{each}")}
    if 1 in closed:
        raise Trouble(f"standard output: {os.strerror(errno.EBADF)}")
