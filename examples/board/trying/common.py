"""What all parts of the trial use."""

import datetime
import socket
import sys
import time


def expect(got, wanted, what):
    if got != wanted:
        sys.exit(f"{what}\n  expected {wanted}\n  but got  {got}")


ROUNDS = 12  # lists that pages are answered while something is waited for
STALL = 60  # seconds without a list that was answered


class Progress:
    """What the machine has done for the pages so far. A relay counts the lists that it has given to them."""

    lists = 0


def is_within(test, seconds):
    """The first value of test that is not false or None, or None after these seconds."""
    end = time.monotonic() + seconds
    while time.monotonic() < end:
        found = test()
        if found:
            return found
        time.sleep(0.05)
    return None


def is_reached(test, seconds=15, moves=None):
    """The first value of test that is not false or None. On a busy machine it waits longer: until the pages were answered some rounds, or
    were answered nothing for a minute. With `moves` it waits for as long as the value of that changes within each minute. None after that."""
    lists, moved, seen = Progress.lists, time.monotonic(), None
    while True:
        found = is_within(test, seconds)
        if found:
            return found
        now = moves() if moves else Progress.lists
        if now != seen:
            moved, seen = time.monotonic(), now
        if time.monotonic() - moved > STALL or (moves is None and Progress.lists - lists >= ROUNDS):
            return None
        seconds = 5


def wait_for(what, test, seconds=15, moves=None):
    """As is_reached; ends the trial if it is not."""
    lists = Progress.lists
    found = is_reached(test, seconds, moves)
    if not found:
        sys.exit(f"not within {seconds} s, nor {Progress.lists - lists} lists: {what}")
    return found


def free_port():
    with socket.socket() as listener:
        listener.bind(("127.0.0.1", 0))
        return listener.getsockname()[1]


def moment_text(moment):
    return moment.strftime("%Y-%m-%dT%H:%M:%SZ")


def moment_now():
    return datetime.datetime.now(datetime.timezone.utc).replace(tzinfo=None, microsecond=0)


def rows_of(text, *widths):
    """The cells of each line of a list, by the widths of its columns; the last takes the rest."""
    rows = []
    for line in text.splitlines()[1:]:
        row, place = [], 0
        for width in widths:
            row.append(line[place : place + width].strip())
            place += width + 1
        rows.append([*row, line[place:].strip()])
    return rows
