"""`serve`: answers the studies of a data folder until it is told to end."""
from __future__ import annotations

import asyncio
import fcntl
import logging
import os
import resource
import signal
import ssl
import sys
from contextlib import contextmanager
from pathlib import Path
from typing import Iterator

from hosting import library, secured, store
from hosting.config import Config
from hosting.studies import Common, Served
from junction.native import Library

LOCK_FILE = "lock"
# The data folder is looked at for new and removed studies once in so many seconds.
LOOK_SECONDS = 1
# How long the lines in hand may take once the host is told to end. The longest search takes a few seconds.
STOP_SECONDS = 60

# Files beside those of connections: five for each study, and some.
OTHER_FILES = 1024

DONE, NOT_IN_TIME, NOT_STARTED = 0, 1, 2

# The levels of the system's journal, which reads them in front of a line.
JOURNAL_LEVELS = {logging.INFO: "<6>", logging.WARNING: "<4>", logging.ERROR: "<3>", logging.CRITICAL: "<2>"}

log = logging.getLogger(__name__)


class NotStarted(Exception):
    """The host cannot start."""


def serve(data: Path, config: Config) -> int:
    """Serves the studies of a data folder until SIGTERM or SIGINT, and gives the exit status."""
    try:
        with _locked(data):
            _begin_log()
            _allow_files(config)
            return asyncio.run(Host(data, config, library.installed(), _context(config)).run())
    except NotStarted as failure:
        print(f"host: {failure}", file=sys.stderr)
        return NOT_STARTED


class Host:
    """Keeps what is served as the data folder has it."""

    def __init__(self, data: Path, config: Config, answering: Library, context: ssl.SSLContext | None) -> None:
        self._common = Common(data, config, answering, set())
        self._context = context
        self._served: dict[str, Served] = {}
        self._stopping = False
        self._wake = asyncio.Event()

    async def run(self) -> int:
        """Serves until the host is told to end."""
        loop = asyncio.get_running_loop()
        for number in (signal.SIGTERM, signal.SIGINT):
            loop.add_signal_handler(number, self._stop)
        loop.add_signal_handler(signal.SIGHUP, self._look_again)
        log.info("serving %s with library %s", self._common.data, self._common.library.sha256)
        while not self._stopping:
            self._look()
            try:
                await asyncio.wait_for(self._wake.wait(), LOOK_SECONDS)
            except TimeoutError:
                pass
            self._wake.clear()
        return await self._end()

    def _look(self) -> None:
        """Serves what is new in the folder, and leaves what is gone. A name that was removed and added again is another study."""
        try:
            present = store.present(self._common.data)
        except OSError as failure:
            log.error("the studies cannot be looked at: %s", failure)
            return
        for name, study in list(self._served.items()):
            if present.get(name) != study.identity:
                study.leave()
            if study.task.done():
                del self._served[name]
        for name, identity in present.items():
            if name not in self._served:
                self._served[name] = Served(name, identity, self._common, self._context)

    def _look_again(self) -> None:
        """SIGHUP: looks at the folder at once, tries again what failed, and reads the certificates anew."""
        log.info("looking at the studies and certificates again")
        try:
            self._context = _context(self._common.config)
        except NotStarted as failure:
            log.error("the certificates stay as they were: %s", failure)
        for study in self._served.values():
            study.context = self._context
            study.try_again()
        self._wake.set()

    def _stop(self) -> None:
        self._stopping = True
        self._wake.set()

    async def _end(self) -> int:
        """Finishes the line in hand of each study, and sends its reply."""
        log.info("ending after the lines in hand")
        tasks = [study.task for study in self._served.values()]
        for study in self._served.values():
            study.leave()
        late = (await asyncio.wait(tasks, timeout=STOP_SECONDS))[1] if tasks else set()
        if late:
            log.error("ended without the lines in hand of %d studies, which took over %d seconds", len(late), STOP_SECONDS)
            return NOT_IN_TIME
        log.info("ended")
        return DONE


@contextmanager
def _locked(data: Path) -> Iterator[None]:
    """Holds the data folder for this process alone."""
    try:
        file = open(data / LOCK_FILE, "ab")
    except OSError as failure:
        raise NotStarted(f"the data folder {data} cannot be used: {failure}") from failure
    with file:
        try:
            fcntl.flock(file, fcntl.LOCK_EX | fcntl.LOCK_NB)
        except BlockingIOError as failure:
            raise NotStarted(f"another host serves the data folder {data}") from failure
        yield


def _context(config: Config) -> ssl.SSLContext | None:
    """TLS by the configuration, if it names a certificate."""
    if not config.tls:
        return None
    try:
        return secured.server_context(config.certificate, config.key, config.client_ca)
    except OSError as failure:
        raise NotStarted(f"certificate, key or client CA cannot be used: {failure}") from failure


def _allow_files(config: Config) -> None:
    """Lets the host have as many files open as its connections and studies take, as far as the system allows."""
    now, most = resource.getrlimit(resource.RLIMIT_NOFILE)
    wanted = min(config.connections + OTHER_FILES, most)
    if now < wanted:
        resource.setrlimit(resource.RLIMIT_NOFILE, (wanted, most))


class _OneLine(logging.Formatter):
    """One line for each event, whatever it says."""

    def format(self, record: logging.LogRecord) -> str:
        return " ".join(super().format(record).splitlines())


class _Journal(_OneLine):
    """For the system's journal, which adds the time itself."""

    def format(self, record: logging.LogRecord) -> str:
        return JOURNAL_LEVELS.get(record.levelno, "") + super().format(record)


def _begin_log() -> None:
    """Sends the log to standard error."""
    error = os.fstat(sys.stderr.fileno())
    journal = os.environ.get("JOURNAL_STREAM") == f"{error.st_dev}:{error.st_ino}"
    handler = logging.StreamHandler()
    handler.setFormatter(_Journal("%(message)s") if journal else _OneLine("%(asctime)s %(levelname)s %(message)s"))
    logging.basicConfig(level=logging.INFO, handlers=[handler])
