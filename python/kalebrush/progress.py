"""A bar on standard error for what takes long."""
from __future__ import annotations

import sys
import time
from typing import TextIO

FIRST, EVERY, WIDE = 0.7, 0.2, 30  # seconds before the bar is shown, and between two of them; marks of a full bar


class Bar:
    """A bar that shows nothing before some time has passed, and takes itself away in the end.

    It is shown on a terminal, or where `shown` says so.
    """

    def __init__(self, title: str, shown: bool | None = None, out: TextIO | None = None) -> None:
        self.title, self.out = title, out or sys.stderr
        self.shown = self.out.isatty() if shown is None else shown
        self.began = self.last = time.monotonic()
        self.drawn = 0

    def update(self, share: float | None, note: str = "") -> None:
        """Shows a share from 0 to 1, or None where it isn't known."""
        now = time.monotonic()
        if not self.shown or now - self.began < FIRST or now - self.last < EVERY:
            return
        self.last, spent = now, now - self.began
        if share is None:
            text = f"{self.title}: {spent:.0f} s {note}"
        else:
            full = round(WIDE * min(1.0, share))
            left = f", {spent / share - spent:.0f} s left" if share > 0.02 else ""
            text = f"{self.title} [{'#' * full}{'.' * (WIDE - full)}] {share:4.0%}{left} {note}"
        self.out.write("\r" + text.ljust(self.drawn))
        self.out.flush()
        self.drawn = len(text)

    def close(self) -> None:
        """Takes the bar away."""
        if self.drawn:
            self.out.write("\r" + " " * self.drawn + "\r")
            self.out.flush()
            self.drawn = 0
