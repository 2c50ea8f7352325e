"""What is wrong with a file or a command, said to a person; and numbers, yes and no in words, read with what is allowed."""
from __future__ import annotations

import re
from collections.abc import Sequence

MOST_SHOWN = 60  # characters of the input in a fault
MOST_LINES = 100  # faults said of one file


class Faults(Exception):
    """What is wrong, for a person to read: one line a fault."""

    def __init__(self, *lines: str):
        self.lines = lines[:MOST_LINES]
        if len(lines) > MOST_LINES:
            self.lines += (f"and {len(lines) - MOST_LINES} more",)
        super().__init__("\n".join(self.lines))


def shown(words: object) -> str:
    """A piece of input as a fault may show it: on one line, and never much of it."""
    text = str(words)
    cut = text[: MOST_SHOWN - 2] + ".." if len(text) > MOST_SHOWN else text
    return "".join(letter if letter.isprintable() else "?" for letter in cut)


def span(values: Sequence[int]) -> str:
    """The values allowed, in words."""
    return f"{values[0]} to {values[-1]}"


def whole_number(word: str, what: str, allowed: range) -> int:
    """The number that a word stands for, within the values allowed."""
    if not re.fullmatch(r"-?[0-9]+", word):
        raise Faults(f"{what} '{shown(word)}' is not a whole number; allowed is {span(allowed)}")
    digits = word.lstrip("-").lstrip("0") or "0"
    # Python itself turns down a number of some thousand digits, so that its length is looked at first.
    value = int(digits) if len(digits) <= 20 else allowed.stop + 10**20
    value = -value if word.startswith("-") else value
    if value not in allowed:
        raise Faults(f"{what} {shown(word)} is out of range; allowed is {span(allowed)}")
    return value


def yes_or_no(word: str, what: str) -> bool:
    """Whether a word says yes."""
    if word not in ("yes", "no"):
        raise Faults(f"{what} '{shown(word)}' is unknown; allowed are yes and no")
    return word == "yes"
