"""The names that a certificate bears: those under which a browser may ask for the page by TLS."""

import ipaddress
import ssl
from typing import Any

# How often the two ends of a connection have something to say until it stands; TLS needs less.
STEPS = 10
NAME, ADDRESS = KINDS = ("DNS", "IP Address")


def of(certificate: str, key: str) -> tuple[str, ...]:
    """The names of a certificate, in lower case, as they are written in a Host header. They are read by a connection in memory to the certificate's owner,
    since nothing else in the standard library reads one. Where it is out of date it has none."""
    trusting = ssl.SSLContext(ssl.PROTOCOL_TLS_CLIENT)
    trusting.check_hostname = False
    trusting.verify_flags |= ssl.VERIFY_X509_PARTIAL_CHAIN
    trusting.load_verify_locations(certificate)
    owning = ssl.SSLContext(ssl.PROTOCOL_TLS_SERVER)
    owning.load_cert_chain(certificate, key)
    there, back = ssl.MemoryBIO(), ssl.MemoryBIO()
    client, server = trusting.wrap_bio(back, there), owning.wrap_bio(there, back, server_side=True)
    try:
        for _ in range(STEPS):
            if _stands(client):
                break
            _stands(server)
    except ssl.SSLError:
        return ()
    shown: dict[str, Any] = client.getpeercert() or {}
    return tuple(_written(kind, name) for kind, name in shown.get("subjectAltName", ()) if kind in KINDS)


def _stands(end: ssl.SSLObject) -> bool:
    """Goes on with one end of the connection, and says whether it stands."""
    try:
        end.do_handshake()
    except ssl.SSLWantReadError:
        return False
    return True


def _written(kind: str, name: str) -> str:
    """A name as it stands in a Host header."""
    if kind == NAME:
        return name.lower()
    address = str(ipaddress.ip_address(name.strip()))
    return f"[{address}]" if ":" in address else address


def fits(name: str, known: str) -> bool:
    """Whether a name is one that a certificate bears, where *. stands for one more label."""
    if known.startswith("*."):
        label, dot, domain = name.partition(".")
        return bool(label and dot) and domain == known[2:]
    return name == known
