"""What a terminal is shown of bytes that are moved: how many, how fast, and what time is left by that."""

import time
from collections.abc import Callable
from typing import IO

WIDTH = 20  # letters of the bar
PATIENCE, AGAIN = 1.0, 0.1  # seconds until something is shown, and from then on to the next time
CLEAR = "\r\x1b[K"  # the beginning of the line, and nothing behind it
UNITS = "kMGTPE"


def bytes_in_words(count: float) -> str:
    """By powers of a thousand, as rates are told."""
    if count < 1000:
        return f"{count:.0f} B"
    for unit in UNITS:
        count /= 1000
        if count < 999.95 or unit == UNITS[-1]:
            break
    return f"{count:.1f} {unit}B"


def seconds_in_words(seconds: float) -> str:
    whole = round(seconds)
    if whole < 60:
        return f"{whole} s"
    return f"{whole // 60} min {whole % 60} s" if whole < 3600 else f"{whole // 3600} h {whole % 3600 // 60} min"


class Progress:
    """A line on a terminal, from the first second on. It is about one content after another, or about all that `expect` said."""

    def __init__(self, out: IO[str], now: Callable[[], float] = time.monotonic):
        self.out, self.now, self.begun = out, now, now()
        self.shown_at, self.is_shown = self.begun + PATIENCE - AGAIN, False
        self.files, self.files_done, self.size, self.done = 0, 0, 0, 0  # of all that is expected

    def expect(self, files: int, size: int) -> None:
        """So many contents of so many bytes together are moved from now on."""
        self.files, self.files_done, self.size, self.done = files, 0, size, 0
        self.begun = self.now()

    def __call__(self, word: str, done: int, of: int | None) -> None:
        """So many bytes of a content are moved, of so many or nobody knows how many."""
        if self.files:
            self.show(word, min(self.done + done, self.size), self.size, False)
        else:
            self.show(word, done, of, done == of)

    def next(self, word: str, size: int) -> None:
        """A content of so many bytes is moved, of those that are expected."""
        self.done += size
        self.files_done += 1
        self.show(word, min(self.done, self.size), self.size, self.files_done == self.files)

    def show(self, word: str, done: int, of: int | None, is_last: bool) -> None:
        now = self.now()
        if not (is_last and self.is_shown) and now < self.shown_at + AGAIN:
            return
        self.shown_at, self.is_shown = now, not is_last
        self.out.write(CLEAR + " ".join([word, *self.words(done, of, now - self.begun, is_last)]) + "\n" * is_last)
        self.out.flush()

    def words(self, done: int, of: int | None, seconds: float, is_last: bool) -> list[str]:
        found = [f"[{'#' * (WIDTH * done // of):<{WIDTH}}]"] if of else []
        found.append(bytes_in_words(done) + (f" of {bytes_in_words(of)}" if of is not None and not is_last else "") + ",")
        found += [f"{self.files_done} of {self.files} files,"] if self.files else []
        rate = done / seconds if seconds > 0 else 0.0
        found.append(f"{bytes_in_words(rate)}/s, {seconds_in_words(seconds)}" if is_last or not of or not rate else f"{bytes_in_words(rate)}/s, {seconds_in_words((of - done) / rate)} left")
        return found

    def end(self) -> None:
        """Nothing is moved any more: what is shown stays."""
        if self.is_shown:
            self.is_shown = False
            self.out.write("\n")
            self.out.flush()

    def clear(self) -> None:
        """Makes room for another line."""
        if self.is_shown:
            self.out.write(CLEAR)
            self.out.flush()
            self.is_shown, self.shown_at = False, self.now() - AGAIN
