"""The server's side of TLS."""
from __future__ import annotations

import ssl


def server_context(certificate: str, key: str, client_ca: str) -> ssl.SSLContext:
    """The server's side of TLS 1.2 or later. Where a client CA is named, only clients with a certificate of it are let in."""
    context = ssl.SSLContext(ssl.PROTOCOL_TLS_SERVER)
    context.minimum_version = ssl.TLSVersion.TLSv1_2
    context.options |= ssl.OP_NO_RENEGOTIATION
    context.load_cert_chain(certificate, key)
    if client_ca:
        context.verify_mode = ssl.CERT_REQUIRED
        context.load_verify_locations(client_ca)
    return context
