"""What the tools read from and write to the standard streams: each may be closed, full or no longer read."""

import errno
import os
import sys


def printable(text):
    """The text with its control characters, but for tabs, as Python writes them."""
    return "".join(it if it.isprintable() or it == "\t" else it.encode("unicode_escape").decode() for it in text)


def given():
    """All bytes of standard input."""
    if sys.stdin is None:
        raise OSError(errno.EBADF, "it is closed", "standard input")
    try:
        return sys.stdin.buffer.read()
    except OSError as fault:
        raise OSError(fault.errno, fault.strerror, "standard input") from None


def put(text):
    """Writes a text to standard output, past Python's buffer, so that nothing is left to fail at the end."""
    put_bytes(text.encode("utf-8", "surrogateescape"))


def put_bytes(data):
    """The same of bytes."""
    if sys.stdout is None:
        raise OSError(errno.EBADF, "it is closed", "standard output")
    left = memoryview(data)
    try:
        while left:
            left = left[os.write(sys.stdout.fileno(), left) :]
    except OSError as fault:
        raise OSError(fault.errno, fault.strerror, "standard output") from None


def write(path, text):
    """Writes a text to a file."""
    try:
        with open(path, "w", encoding="utf-8") as file:
            file.write(text)
    except OSError as fault:
        raise OSError(fault.errno, fault.strerror, path) from None


def say(text):
    """A line on standard error, if there is one that takes it."""
    try:
        if sys.stderr is not None:
            print(text, file=sys.stderr)
    except OSError:
        pass


def run(name, main):
    """Ends a tool with the status of `main`; with 2, and one line of why, if a file or a stream fails."""
    try:
        sys.exit(main())
    except OSError as fault:
        say(f"{name}: {printable(reason(fault))}")
        sys.exit(2)


def reason(fault):
    """What an error of the system is, with the name of the file or stream."""
    return ": ".join(str(it) for it in (fault.filename, fault.strerror) if it is not None)
