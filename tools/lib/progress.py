"""What a tool is doing, told on a terminal: one line of the standard error that is written over. Where that is no terminal, nothing is told.
This module is written for each Python from 3.8 on, as tools/first-look."""

from __future__ import annotations

import os
from collections.abc import Iterator
from contextlib import contextmanager
from threading import Event, Lock, Thread
from time import monotonic
from typing import TextIO

from texts import plain

# How often the line is written anew, and after how long the time that is left is told, in seconds.
TICK, SURE = 0.5, 2.0
WIDTH = 80


class Progress:
    """The line of one tool, on a text that is a terminal; on another one, or none, it does nothing."""

    def __init__(self, out: TextIO | None = None, tick: float = TICK) -> None:
        self.out = out if out and out.isatty() else None
        self.tick, self.lock, self.ended = tick, Lock(), Event()
        self.what, self.done, self.total, self.began, self.long = "", 0, 0, monotonic(), 0
        self.thread: Thread | None = None

    def begin(self, what: str, total: int = 0) -> None:
        """Says what is done from now on, and in how many steps; 0 where nobody knows."""
        self.what, self.done, self.total, self.began = plain(what), 0, total, monotonic()
        if self.out and not self.thread:
            self.thread = Thread(target=self.run, daemon=True)
            self.thread.start()

    def step(self) -> None:
        """Says that a step was done."""
        self.done += 1

    def line(self) -> str:
        """Returns what there is to tell: the steps that were done, of how many, and about how long the others take."""
        elapsed = monotonic() - self.began
        if not self.total:
            return f"{self.what}: {elapsed:.0f} s"
        told = f"{self.what}: {self.done:,} of {self.total:,}"
        if self.done and elapsed >= SURE:
            return f"{told}, about {elapsed / self.done * (self.total - self.done):.0f} s more"
        return f"{told}, {elapsed:.0f} s"

    def run(self) -> None:
        """Writes the line again and again until the end, so that nobody waits before a terminal that stands still."""
        while not self.ended.wait(self.tick):
            with self.lock:
                if not self.ended.is_set():
                    self.write(self.line())

    def write(self, text: str) -> None:
        """Writes a text over the one before."""
        if not self.out:
            return
        try:
            # (a terminal of no width does not know its own)
            text = text[: (os.get_terminal_size(self.out.fileno()).columns or WIDTH) - 1]
            self.out.write(f"\r{text.ljust(self.long)}")
            self.out.flush()
        except (OSError, ValueError):
            # (the terminal is gone)
            self.ended.set()
        self.long = len(text)

    def wipe(self) -> None:
        """Takes the line off."""
        if self.out and self.long:
            self.write("")
            self.out.write("\r")
            self.out.flush()

    @contextmanager
    def wiped(self) -> Iterator[None]:
        """Leaves the terminal to others for a while."""
        with self.lock:
            self.wipe()
            yield

    def end(self) -> None:
        """Takes the line off for good."""
        with self.lock:
            self.ended.set()
            self.wipe()
