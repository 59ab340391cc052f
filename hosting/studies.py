"""One study of the data folder, served from when it is found until it is removed or the host ends."""
from __future__ import annotations

import asyncio
import logging
import ssl
from contextlib import asynccontextmanager
from pathlib import Path
from typing import AsyncIterator, NamedTuple

from hosting import checks, store
from hosting.config import Config
from hosting.connections import Clients, Connection
from hosting.listeners import Listener
from hosting.workers import Worker
from junction.native import Library

# A study that cannot be served is tried again after so many seconds.
RETRY_SECONDS = 60

log = logging.getLogger(__name__)


class Common(NamedTuple):
    """What the studies of a host have in common."""

    data: Path
    config: Config
    library: Library
    everybody: set[Connection]


class Served:
    """A study with its worker, its address and its clients."""

    def __init__(self, name: str, identity: int, common: Common, context: ssl.SSLContext | None) -> None:
        self.name = name
        self.identity = identity
        self.context = context
        self._common = common
        self._leaving = asyncio.get_running_loop().create_future()
        self._again = asyncio.Event()
        self._said = ""
        self.task = asyncio.create_task(self._keep_serving())

    def leave(self) -> None:
        """Lets `task` end after the line in hand."""
        if not self._leaving.done():
            self._leaving.set_result(None)
            self._again.set()

    def try_again(self) -> None:
        """Tries at once again what failed."""
        self._again.set()

    async def _keep_serving(self) -> None:
        while not self._leaving.done():
            try:
                await self._serve()
            except Exception as failure:
                self._say_why_not(failure)
                await self._pause()

    def _say_why_not(self, failure: Exception) -> None:
        """Says a reason once, and not again each time that it is found."""
        reason = str(failure) or type(failure).__name__
        if reason != self._said:
            log.error("study %s is not served: %s", self.name, reason)
        self._said = reason

    async def _pause(self) -> None:
        self._again.clear()
        if not self._leaving.done():
            try:
                await asyncio.wait_for(self._again.wait(), RETRY_SECONDS)
            except TimeoutError:
                pass

    async def _serve(self) -> None:
        """Serves the study until it is to leave; raises what went wrong. Replies to lines that were answered are sent in any case."""
        data, config, library, everybody = self._common
        settings = await asyncio.to_thread(store.settings, data, self.name)
        worker = Worker(self.name, lambda: checks.open_study(data, self.name, library, config), asyncio.get_running_loop())
        secured = not settings.address.socket
        clients = Clients(self.name, settings.crlf, library.header.line_characters, config, worker, everybody,
                          lambda: self.context if secured else None)
        try:
            async with _working(worker), _listening(settings.address, config, clients):
                log.info("study %s is served at %s", self.name, settings.address)
                self._said = ""
                await asyncio.wait({self._leaving, worker.ended}, return_when=asyncio.FIRST_COMPLETED)
        finally:
            await clients.close()
        log.info("study %s is no longer served", self.name)


@asynccontextmanager
async def _working(worker: Worker) -> AsyncIterator[None]:
    """The worker from when it has opened its study until it has ended."""
    worker.start()
    try:
        await worker.opened
        yield
    finally:
        worker.stop()
        await worker.ended


@asynccontextmanager
async def _listening(address: store.Address, config: Config, clients: Clients) -> AsyncIterator[None]:
    """The address as long as it is open. Afterwards no more lines are taken from its clients."""
    listener = Listener(address, config)
    try:
        await listener.start(lambda: Connection(clients))
        yield
    finally:
        listener.close()
        clients.hold()
