"""`page`: shows the studies of a data folder to planners, by HTTP, until a signal ends it. It is a process of its own, which only reads."""

import argparse
import signal
import threading

from hosting import config
from hosting import library as libraries
from hosting.page.following import Studies
from hosting.page.routes import Routes
from hosting.page.server import PageServer, Place, may_show
from hosting.printing import DONE, note
from hosting.store import NotServed

LOOPBACK = "127.0.0.1"
ENDING = (signal.SIGTERM, signal.SIGINT)


def page(given: argparse.Namespace) -> int:
    """Shows all studies to planners, as a page in a browser, until a signal ends it. It reads what is stored, and the host need not be at work."""
    configured, bind = config.read(given.data), given.bind or LOOPBACK
    if not may_show(bind, configured):
        needed = f"certificate, key and client_ca in {config.FILE}"
        raise NotServed(f"without TLS and a client CA ({needed}) the page is shown on loopback addresses only, and {bind} is none")
    place, routes = Place.of(bind, given.port, configured), Routes(Studies(given.data, libraries.installed()))
    try:
        server = PageServer(place, routes)
    except OSError as error:
        raise NotServed(f"the page cannot be shown at {place}: {error.strerror or error}") from error
    # The threads of the server leave signals to this one.
    signal.pthread_sigmask(signal.SIG_BLOCK, ENDING)
    with server:
        threading.Thread(target=server.serve_forever, daemon=True).start()
        note([f"the page of {given.data} is at {server.place}"])
        signal.sigwait(ENDING)
        server.shutdown()
    return DONE
