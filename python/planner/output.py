"""What the command prints, such that nothing is lost without a word: answers, complaints, and how far a search is."""
from __future__ import annotations

import errno
import os
import sys
import time
from collections.abc import Callable, Iterable
from typing import IO

from .faults import Faults
from .library import Search


class OutputLost(Exception):
    """An answer could not be written: the disk is full, or nobody reads any more. That nobody reads is no news, so it has no words."""

    def __init__(self, place: str, error: object):
        super().__init__("" if isinstance(error, BrokenPipeError) else f"{place}: {getattr(error, 'strerror', None) or error}")


def listed(numbers: Iterable[int], between: str = " ") -> str:
    """Numbers in a row."""
    return between.join(map(str, numbers))


def say(text: str, end: str = "\n") -> None:
    """Prints an answer, at once."""
    say_bytes((text + end).encode("utf-8", "backslashreplace"))


def say_bytes(data: bytes) -> None:
    """Writes bytes to standard output, at once."""
    if sys.stdout is None:
        raise OutputLost("standard output", "closed")
    try:
        sys.stdout.flush()
        sys.stdout.buffer.write(data)
        sys.stdout.buffer.flush()
    except OSError as error:
        raise OutputLost("standard output", error) from None


def complain(text: str) -> None:
    """Prints a complaint; where that cannot be done, the exit status has to do."""
    if sys.stderr is None or not text:
        return
    try:
        print(text.encode("utf-8", "backslashreplace").decode(), file=sys.stderr, flush=True)
    except OSError:
        silence(sys.stderr)


def write_file(path: str, data: bytes) -> None:
    """Writes a file, or standard output for '-'. What is half written is taken away: it could pass for a smaller sea."""
    if path == "-":
        return say_bytes(data)
    try:
        file = open(path, "wb")
    except (OSError, ValueError) as error:
        if getattr(error, "errno", None) in (errno.ENOSPC, errno.EDQUOT):
            raise OutputLost(path, error) from None
        raise Faults(f"{path}: {getattr(error, 'strerror', None) or error}") from None
    try:
        with file:
            file.write(data)
    except OSError as error:
        if os.path.isfile(path):
            os.unlink(path)
        raise OutputLost(path, error) from None


def silence(stream: IO[str] | None) -> None:
    """Lets what a stream still holds go nowhere, so that the end of the program does not try once more and fail aloud."""
    if stream is not None:
        nowhere = os.open(os.devnull, os.O_WRONLY)
        os.dup2(nowhere, stream.fileno())
        os.close(nowhere)


class Progress:
    """How far a search is, on a terminal's standard error, from the first second on."""

    def __init__(self) -> None:
        self.shows = bool(sys.stderr and sys.stderr.isatty())
        self.next, self.shown = time.monotonic() + 1, False

    def __call__(self, search: Search) -> None:
        def words() -> str:
            """How far the search is."""
            best = search.best_so_far()
            so_far = "no round yet" if best is None else f"best so far {best}"
            return f"nodes {search.record.count}, {so_far}, ceiling {search.record.settings.ceiling}"

        self.line(words)

    def line(self, words: Callable[[], str]) -> None:
        """Shows these words, if it is time."""
        now = time.monotonic()
        if self.shows and now >= self.next:
            self.next, self.shown = now + 0.2, True
            self.write(f"\r\033[K{words()}")

    def end(self) -> None:
        """Takes the line away; the next search has its first second again."""
        if self.shown:
            self.write("\r\033[K")
        self.next, self.shown = time.monotonic() + 1, False

    def write(self, text: str) -> None:
        """Writes to the terminal; one that is gone is no reason to stop."""
        try:
            print(text, end="", file=sys.stderr, flush=True)
        except OSError:
            self.shows = self.shown = False
