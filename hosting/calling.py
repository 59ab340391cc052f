"""Commands that send lines are clients of the host like any other: they reach a study at its address."""

import ipaddress
import ssl
import time
from collections.abc import Iterator
from contextlib import contextmanager
from pathlib import Path
from typing import NamedTuple

from hosting import config, store
from hosting.config import Config
from hosting.records import Address, Settings
from junction import services
from junction.services import Service

WAIT_SECONDS = 5
AGAIN_SECONDS = 0.1
LOOPBACK = {4: "127.0.0.1", 6: "::1"}


class NotReached(Exception):
    """A study whose address does not answer."""


class Shown(NamedTuple):
    """The files of a client's certificate and its key, which it shows where the host asks for one."""

    certificate: Path
    key: Path


def shown(certificate: Path | None, key: Path | None) -> Shown | None:
    """A client's certificate, where one is named. Its key is in the same file unless named."""
    return None if certificate is None else Shown(certificate, key or certificate)


@contextmanager
def service(data: Path, name: str, certificate: Shown | None = None) -> Iterator[Service]:
    """A connection to a study that the host serves."""
    settings = store.settings(data, name)
    given = config.read(data)
    context = _context(given, certificate) if _secured(settings, given) else None
    try:
        connection = _connected(_place(settings, given), context)
    except OSError as error:
        raise NotReached(f"study {name} is not served at {settings.address}: {error.strerror or error}") from error
    with connection:
        yield connection


def _connected(place: str, context: ssl.SSLContext | None) -> Service:
    """A connection. An address where nobody listens is tried again for some seconds: a study that was just added, or whose host was just started, is
    not served at once."""
    end = time.monotonic() + WAIT_SECONDS
    while True:
        try:
            return services.connect(place, context)
        except (ConnectionRefusedError, FileNotFoundError):
            if time.monotonic() > end:
                raise
        time.sleep(AGAIN_SECONDS)


def _secured(settings: Settings, given: Config) -> bool:
    return given.tls and not settings.address.socket


def _place(settings: Settings, given: Config) -> str:
    """A study's address as a client writes it."""
    if settings.address.socket:
        return f"unix:{settings.address.socket}"
    return f"{'tls:' if given.tls else ''}{_near(settings.address)}"


def _near(address: Address) -> Address:
    """An address of this machine: loopback for one that stands for all of them."""
    bind = ipaddress.ip_address(address.bind)
    return address._replace(bind=LOOPBACK[bind.version]) if bind.is_unspecified else address


def _context(given: Config, shown: Shown | None) -> ssl.SSLContext:
    """Trusts the host's own certificate and no other, whatever name it bears."""
    context = ssl.SSLContext(ssl.PROTOCOL_TLS_CLIENT)
    context.minimum_version = ssl.TLSVersion.TLSv1_2
    context.check_hostname = False
    context.verify_flags |= ssl.VERIFY_X509_PARTIAL_CHAIN
    context.load_verify_locations(given.certificate)
    if shown is not None:
        context.load_cert_chain(shown.certificate, shown.key)
    elif given.client_ca:
        raise NotReached(f"the host asks its clients for a certificate (client_ca in {config.FILE}): --certificate and --key name one")
    return context
