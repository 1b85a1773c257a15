"""The worked cases, in the format in which the program `trials` reads them, and what it must print."""
import sys

import other_planner
from formats import words

MOST_BANS = 64
CASES = []  # what the program reads, its line as it is written by hand, whether that is only the line's start


def case(kind, title, answer, number=0, roads=0, label_words=0, trunk=b"", order=b"", bans=(), sheet=b"", computed=False):
    """One case; `answer` is what the program must print after the title, or how that starts where the rest is computed.

    `bans` are the numbers of its ban list, at most 64, and `roads` the R that an order check is told.
    """
    given = kind.encode() + bytes([len(title)]) + title.encode()
    if len(bans) > MOST_BANS:
        sys.exit("%s: the program takes at most %d banned roads" % (title, MOST_BANS))
    parts = [trunk, order, words(*bans), sheet]
    given += words(number, roads, label_words, *map(len, parts)) + b"".join(parts)
    CASES.append((given, "%s: %s" % (title, answer), computed))


def files():
    """The other planner must agree with every line by hand; it completes the computed ones."""
    given = b"".join(given for given, _, _ in CASES)
    lines = other_planner.trials(given)
    for (_, by_hand, computed), line in zip(CASES, lines, strict=True):
        agrees = line.startswith(by_hand) if computed else line == by_hand
        if not agrees:
            sys.exit("by hand:            %s\nthe other planner:  %s" % (by_hand, line))
    return {"trials/stdin": given, "trials/stdout": "".join(line + "\n" for line in lines).encode()}
