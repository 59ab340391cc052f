"""The addresses at which studies are served."""
from __future__ import annotations

import asyncio
import errno
import ipaddress
import os
import socket
import stat
from pathlib import Path
from typing import Callable

from hosting.config import Config, may_listen
from hosting.store import Address, NotServed

SOCKET_MODE = 0o660
WAITING_CONNECTIONS = 128


class Listener:
    """An open address. New clients get a protocol of the factory."""

    def __init__(self, address: Address, config: Config) -> None:
        """Takes the address, or raises NotServed or OSError. Nobody can connect before `start`."""
        self._path = Path(address.socket) if address.socket else None
        self._socket = _socket_file(self._path) if self._path else _tcp(address.bind, address.port, config)
        self._inode = self._path.stat().st_ino if self._path else None
        self._server: asyncio.Server | None = None

    async def start(self, factory: Callable[[], asyncio.BaseProtocol]) -> None:
        """Lets clients connect."""
        loop = asyncio.get_running_loop()
        start = loop.create_unix_server if self._path else loop.create_server
        self._server = await start(factory, sock=self._socket, backlog=WAITING_CONNECTIONS)

    def close(self) -> None:
        """Gives the address back. A socket file goes with it, unless another listener has put its own in the place."""
        if self._path is not None and _inode(self._path) == self._inode:
            self._path.unlink()
        if self._server is not None:
            self._server.close()
        self._socket.close()


def _tcp(bind: str, port: int, config: Config) -> socket.socket:
    if not may_listen(bind, config):
        raise NotServed(f"without TLS the host listens on loopback addresses only, and {bind} is none")
    version = ipaddress.ip_address(bind).version
    listening = socket.socket(socket.AF_INET6 if version == 6 else socket.AF_INET)
    try:
        listening.setsockopt(socket.SOL_SOCKET, socket.SO_REUSEADDR, 1)
        listening.bind((bind, port))
    except BaseException:
        listening.close()
        raise
    return listening


def _socket_file(path: Path) -> socket.socket:
    """Has its mode before it listens, so that nobody else gets in between."""
    _remove_stale(path)
    listening = socket.socket(socket.AF_UNIX)
    try:
        listening.bind(str(path))
        os.chmod(path, SOCKET_MODE)
    except BaseException:
        listening.close()
        raise
    return listening


def _remove_stale(path: Path) -> None:
    """Removes a socket file at which nobody answers any more."""
    try:
        if not stat.S_ISSOCK(path.lstat().st_mode):
            raise NotServed(f"{path} is there, and is no socket file")
    except FileNotFoundError:
        return
    with socket.socket(socket.AF_UNIX) as caller:
        caller.setblocking(False)
        refused = caller.connect_ex(str(path)) == errno.ECONNREFUSED
    if not refused:
        raise NotServed(f"another program listens at {path}")
    path.unlink()


def _inode(path: Path) -> int | None:
    try:
        return path.stat().st_ino
    except FileNotFoundError:
        return None
