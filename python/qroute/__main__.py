"""Runs the program with the words that are given: `python -m qroute opt < IN > OUT`, and the command `qroute` of a wheel."""

import os
import sys

import qroute


HELP = ("-h", "--help", "help", "-V", "--version")


def lead_to_manual() -> None:
    """Says where the manual is; the program has no help of its own."""
    path = os.path.join(sys.prefix, "share/man/man1/qroute.1")
    where = path if os.path.exists(path) else "qroute"
    print(f"qroute: version {qroute.__version__}; the manual is `man {where}`", file=sys.stderr)


def become(path: str) -> None:
    """Becomes the program of a path, which must not be this command itself."""
    try:
        if not os.path.exists(sys.argv[0]) or not os.path.samefile(path, sys.argv[0]):
            os.execv(path, ["qroute", *sys.argv[1:]])
    except OSError as fault:
        raise qroute.NoProgram(f"{path}: {fault.strerror}") from None
    raise qroute.NoProgram(f"{path} is this command itself, which has to find the program: don't set QROUTE to it")


def main() -> None:
    """Becomes the program; status 70 if there is none, as the launcher of a checkout has it."""
    if not sys.argv[1:] or sys.argv[1] in HELP:
        lead_to_manual()
    try:
        become(qroute.program())
    except qroute.NoProgram as fault:
        print(f"qroute: {fault}", file=sys.stderr)
        sys.exit(70)


if __name__ == "__main__":
    main()
