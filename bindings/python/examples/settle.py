"""Settles the day files named on the command line and prints their lines, totals and uplift.

Ends with 0 where all days are settled, 1 where one is refused, 2 where a file can't be read or the output can't be written.
"""

import os
import sys
from pathlib import Path

import mewikofu


def settle(file: str) -> int:
    """Prints a day's lines, totals and uplift; the exit status for it."""
    try:
        day = Path(file).read_bytes()
    except OSError as error:
        print(error, file=sys.stderr)
        return 2
    try:
        book, uplift = mewikofu.settle(day), mewikofu.uplift(day)
    except mewikofu.Refusal as refusal:
        print(f"{file}: {refusal}", file=sys.stderr)
        return 1
    for line in book.lines:
        side = "withdrawal" if line.withdrawal else "injection"
        print(f"{file}: participant {line.participant}, point {line.point}, {side}: {line.payments}")
    print(f"{file}: totals {book.totals}, adjusted {book.adjusted}, uplift {uplift}")
    return 0


def main() -> int:
    files = sys.argv[1:]
    if not files:
        print("usage: settle.py DAY..", file=sys.stderr)
        return 2
    try:
        status = max(settle(file) for file in files)
        sys.stdout.flush()
    except OSError as error:
        print(f"standard output: {error}", file=sys.stderr)
        # Python writes what is left at its end, and would then end with 120.
        os.dup2(os.open(os.devnull, os.O_WRONLY), sys.stdout.fileno())
        return 2
    return status


if __name__ == "__main__":
    sys.exit(main())
