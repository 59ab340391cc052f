"""The thread that answers the lines of one study."""
from __future__ import annotations

import asyncio
import threading
import time
from concurrent.futures import Future
from contextlib import closing
from queue import Empty, SimpleQueue
from typing import Callable, Iterator, Protocol

from hosting.store import NotStored, Study

# Lines that wait are stored together, so many at most, and no more once the first has waited so many seconds.
TOGETHER_LINES = 64
TOGETHER_SECONDS = 0.05


class Asker(Protocol):
    """Who asks for a reply. Its methods are called by the event loop; `failed` is set by the worker."""

    failed: bool

    def answered(self, reply: bytes) -> None:
        """The reply to the oldest line without one."""

    def not_stored(self, reason: str) -> None:
        """The oldest line without a reply could not be stored: neither it nor any line behind it is answered."""


class Worker(threading.Thread):
    """Answers the lines of one study one at a time, in the order in which they were asked. The study's database is opened, used and
    closed by this thread alone, so a long search holds up its own study and no other."""

    def __init__(self, name: str, open_study: Callable[[], Study], loop: asyncio.AbstractEventLoop) -> None:
        super().__init__(name=f"study {name}", daemon=True)
        self._open_study = open_study
        self._loop = loop
        self._asked: SimpleQueue[tuple[Asker, bytes] | None] = SimpleQueue()
        self._stopping = False
        self._opened: Future[None] = Future()
        self._ended: Future[None] = Future()
        self.opened = asyncio.wrap_future(self._opened, loop=loop)
        self.ended = asyncio.wrap_future(self._ended, loop=loop)

    def ask(self, asker: Asker, line: bytes) -> None:
        """Asks for the reply to a line."""
        self._asked.put((asker, line))

    def stop(self) -> None:
        """Lets the thread end after the line in hand. Lines behind it are neither answered nor stored."""
        self._stopping = True
        self._asked.put(None)

    def run(self) -> None:
        """Opens the study, answers until it is stopped, and closes the study. What goes wrong is the outcome of `opened` or `ended`."""
        try:
            study = self._open_study()
        except Exception as failure:
            self._opened.set_exception(failure)
            self._ended.set_result(None)
            return
        self._opened.set_result(None)
        try:
            with closing(study):
                self._answer_all(study)
        except Exception as failure:
            self._ended.set_exception(failure)
        else:
            self._ended.set_result(None)

    def _answer_all(self, study: Study) -> None:
        while not self._stopping and (asked := self._asked.get()) is not None:
            askers: list[Asker] = []
            try:
                replies = study.take_all(self._waiting(asked, askers))
            except NotStored as failure:
                self._tell_failure(askers, str(failure))
            else:
                for asker, reply in zip(askers, replies, strict=True):
                    self._loop.call_soon_threadsafe(asker.answered, reply)

    def _waiting(self, asked: tuple[Asker, bytes] | None, askers: list[Asker]) -> Iterator[bytes]:
        """The line that was asked first and those that wait behind it, to be stored together. Who asked is added to `askers`."""
        end = time.monotonic() + TOGETHER_SECONDS
        while asked is not None:
            asker, line = asked
            if not asker.failed:
                askers.append(asker)
                yield line
            if self._stopping or len(askers) >= TOGETHER_LINES or time.monotonic() >= end:
                return
            try:
                asked = self._asked.get_nowait()
            except Empty:
                return

    def _tell_failure(self, askers: list[Asker], reason: str) -> None:
        for asker in dict.fromkeys(askers):
            asker.failed = True
            self._loop.call_soon_threadsafe(asker.not_stored, reason)
