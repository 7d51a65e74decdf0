"""Identities: where they come from, how they sign, and how secrets stay with the host.

The engine signs with a *stand-in*, a random text. The host puts the secret in its place as it
sends. So no secret is in what the engine knows, logs or prints.
"""
import re
import secrets
import threading
import urllib.parse
from collections import OrderedDict
from dataclasses import dataclass, field
from typing import Any, Callable, List, Optional, Union

from .clock import nanoseconds, optional_nanoseconds
from .protocol import Header, WireRequest

STAND_IN = re.compile(rb"wishqoram-secret-[0-9a-f]{32}")
KEPT_SECRETS = 64  # of a client: more than one cache and one run can use at a time
HEADER_TEXT = re.compile(rb"[\t\x20-\x7e\x80-\xff]*")


@dataclass(frozen=True)
class Identity:
    """A token or a key, and the moment when it expires, in seconds since 1970."""

    data: Union[bytes, str] = field(repr=False)
    expires: Optional[float] = None


IdentitySource = Callable[[], Union[Identity, bytes, str]]
"""Loads an identity. It is called in a thread of its own, and may take its time. What it raises
is the cause of the error that the run ends with."""


@dataclass(frozen=True)
class IdentityCache:
    """How long a loaded identity is used again. Spans are seconds."""

    buffer: float = 10.0
    """So long before it expires an identity counts as expired."""
    expiration: float = 900.0
    """How long one without a moment of its own is used: 15 minutes at the least."""
    partitions: int = 64
    """Of how many schemes an identity is kept."""
    load_timeout: Optional[float] = None
    """How long a load may take. Without it that is reckoned from deadlines and retries."""

    def form(self) -> Any:
        spans = [nanoseconds(self.buffer), nanoseconds(self.expiration)]
        return ["lazy", [*spans, self.partitions, optional_nanoseconds(self.load_timeout)]]


class AuthScheme:
    """A way to sign. This one puts the identity itself in the header `authorization`."""

    def __init__(self, id: str, source: IdentitySource):
        self.id = id
        self.source = source

    def form(self) -> Any:
        """How it signs, where the engine has to be told."""
        return None


class BearerToken(AuthScheme):
    """`http-bearer-auth`: a token in the header `authorization`."""

    def __init__(self, source: IdentitySource):
        super().__init__("http-bearer-auth", source)

    def form(self) -> Any:
        return ["bearer"]


class ApiKey(AuthScheme):
    """`http-api-key-auth`: a key in a header or in the query, under a name."""

    def __init__(
        self,
        source: IdentitySource,
        name: str,
        *,
        in_query: bool = False,
        prefix: Optional[str] = None,
    ):
        super().__init__("http-api-key-auth", source)
        self._form = ["api_key", "Query" if in_query else "Header", name, prefix]

    def form(self) -> Any:
        return self._form


class UnknownSecret(Exception):
    """A request has a stand-in whose secret the host doesn't have any more."""


class Vault:
    """The secrets of a client that the engine has stand-ins for."""

    def __init__(self, keeps_secrets: bool):
        self.keeps_secrets = keeps_secrets
        self._lock = threading.Lock()
        self._secrets: "OrderedDict[bytes, bytes]" = OrderedDict()

    def handed(self, secret: bytes) -> bytes:
        """What the engine is handed for a secret. One that no header may have is refused."""
        if not HEADER_TEXT.fullmatch(secret):
            raise ValueError("an identity has bytes that no header may have")
        if not self.keeps_secrets:
            return secret
        stand_in = b"wishqoram-secret-" + secrets.token_hex(16).encode("ascii")
        with self._lock:
            self._secrets[stand_in] = secret
            if len(self._secrets) > KEPT_SECRETS:
                self._secrets.popitem(last=False)
        return stand_in

    def put_in(self, request: WireRequest) -> WireRequest:
        """The request with the secrets in the place of their stand-ins."""
        headers: List[Header] = [
            (name, STAND_IN.sub(lambda found: self._secret(found[0]), value))
            for name, value in request.headers
        ]
        return request._replace(url=self._url(request.url), headers=headers)

    def _url(self, url: str) -> str:
        place = STAND_IN.pattern.decode("ascii")
        return re.sub(place, lambda found: self._in_query(found[0]), url)

    def _in_query(self, stand_in: str) -> str:
        return urllib.parse.quote(self._secret(stand_in.encode("ascii")), safe="")

    def _secret(self, stand_in: bytes) -> bytes:
        with self._lock:
            secret = self._secrets.get(stand_in)
        if secret is None:
            raise UnknownSecret("the secret of a stand-in is gone")
        return secret


def identity_of(loaded: Union[Identity, bytes, str]) -> Identity:
    """What a source answered, with its data as bytes."""
    identity = loaded if isinstance(loaded, Identity) else Identity(loaded)
    data = identity.data
    return Identity(data.encode("utf-8") if isinstance(data, str) else data, identity.expires)
