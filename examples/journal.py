#!/usr/bin/env python3
"""Writes a table of commands as a journal that `pccrun audit` reads.

    pccrun step < OPENING | examples/journal.py COMMANDS.csv

OPENING is a script without actions, whose one `open` line opens the subspace. `step` prints its empty journal, and the records go between its two lines.
COMMANDS.csv has one row for each command, in the order of their posts. A last row without a response is the command that is still in flight.

    post_us, done_us   microseconds at which the command was posted and seen complete
    caller, command    numbers, decimal or 0x..
    status             ok or error
    timed_out          yes if the caller had given the command up before it was complete, else no
    request, response  the whole communication space as it was sent, and as it came back, in hexadecimal
"""

import csv
import sys


def number(text: str) -> int:
    """The number that a field has."""
    return int(text, 0)


def space(text: str) -> str:
    """The bytes of a field, as a journal has them."""
    return bytes.fromhex(text).hex() or "-"


def record(place: int, row: dict[str, str]) -> str:
    """The line of a command that is complete."""
    start = f"record {place} caller {number(row['caller'])} code {number(row['command'])} {row['status']}"
    times = f"post {number(row['post_us'])} done {number(row['done_us'])} {'late' if row['timed_out'] == 'yes' else 'timely'}"
    return f"{start} {times} in {space(row['request'])} out {space(row['response'])}"


def pending(row: dict[str, str]) -> str:
    """The line of a command that is in flight."""
    return f"pending caller {number(row['caller'])} code {number(row['command'])} post {number(row['post_us'])} in {space(row['request'])}"


def main() -> None:
    with open(sys.argv[1], newline="", encoding="ascii") as table:
        rows = list(csv.DictReader(table))
    head, end = sys.stdin.read().splitlines()
    print(head)
    for place, row in enumerate(rows):
        print(record(place, row) if row["response"] else pending(row))
    print(end)


if __name__ == "__main__":
    main()
