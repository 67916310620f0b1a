"""What a client is made with, and what it says to each process."""

from __future__ import annotations

import ssl
from typing import Optional, Sequence

from .http import Address

# So long a process may say nothing. It tells a caller that waits so after its own patience, ten seconds.
TIMEOUT = 30.0
# So long a call with an id is asked again, and a history that broke off opened again.
DEADLINE = 60.0
# A process says each fifteen seconds that a history is still told.
SILENCE = 45.0


def context_of(addresses: Sequence[Address], tls: Optional[ssl.SSLContext]) -> Optional[ssl.SSLContext]:
    """By what TLS is spoken, where it is; by default with servers of the machine's authorities."""
    if tls is None and any(address.is_tls for address in addresses):
        return ssl.create_default_context()
    return tls


def refuse_open_network(addresses: Sequence[Address], insecure_network: bool) -> None:
    """Raises ValueError where what is asked, or a token, could be read on its way, and answers changed."""
    open_ones = [address.text for address in addresses if not address.is_private()]
    if open_ones and not insecure_network:
        raise ValueError(f"{open_ones[0]} is a network without TLS: https://.., or insecure_network=True")
