"""What the engine is told of a client. Spans are seconds, tokens are whole or parts of one."""
from dataclasses import dataclass, field
from typing import Any, List, Mapping, NamedTuple, Optional, Sequence, Union

from .clock import nanoseconds, optional_nanoseconds
from .identities import AuthScheme, IdentityCache
from .protocol import blob_of

RETRIED_STATUSES = (500, 502, 503, 504)
NO_IDENTITY = ["", None]  # what stands for an identity in a description, where ids alone count


@dataclass(frozen=True)
class Bucket:
    """A budget that retries are paid from."""

    capacity: int = 500
    """Tokens, with which it begins too."""
    retry_cost: int = 5
    throttling_cost: int = 5
    transient_cost: int = 10
    """Tokens that a retry costs, by what failed before it."""
    reward: float = 0.0
    """Tokens that a success adds, to the thousandth."""
    rate: float = 0.0
    """Tokens that a second adds, to the thousandth."""

    def form(self) -> List[int]:
        costs = [self.retry_cost, self.throttling_cost, self.transient_cost]
        return [self.capacity, *costs, round(self.reward * 1000), round(self.rate * 1000)]


class Sums(NamedTuple):
    """The tokens of a bucket. Those that are available, held and forgotten are together its
    capacity and what was granted."""

    capacity: int
    granted: int
    """What successes and time added."""
    available: int
    held: int
    """What open retries took, or the last one of a run that failed."""
    forgotten: int
    """What is lost for good, since a further retry was paid."""


@dataclass(frozen=True)
class Retry:
    """How often a client tries, and how long it waits in between."""

    max_attempts: int = 3
    initial_backoff: float = 1.0
    """Seconds of the first pause. Each further one is twice as long."""
    max_backoff: float = 20.0
    """Seconds of the longest pause."""
    reconnect: bool = True
    """Whether a connection on which an attempt failed isn't used again."""
    static_base: bool = False
    """Whether a pause is taken whole, and not a random part of it."""
    mode: str = "Standard"
    """`Standard`, or `Adaptive`, which also limits how often a throttled client sends."""

    def form(self) -> List[Any]:
        pauses = [nanoseconds(self.initial_backoff), nanoseconds(self.max_backoff)]
        reconnect = "ReconnectOnTransientError" if self.reconnect else "ReuseAllConnections"
        return [self.mode, self.max_attempts, *pauses, reconnect, self.static_base, None]


@dataclass(frozen=True)
class ErrorRule:
    """Responses that are an error of the service. The first rule that a response meets counts."""

    status: int
    name: str
    """What the error is called. `throttle`, `transient` and `server` are the kinds of errors that
    are tried again."""
    headers: Mapping[str, str] = field(default_factory=dict)
    """Headers that the response has, with these values."""
    word: Optional[str] = None
    """What stands somewhere in the first 16384 bytes of its body."""

    def form(self) -> List[Any]:
        headers = [[name, blob_of(value.encode("latin-1"))] for name, value in self.headers.items()]
        word = None if self.word is None else blob_of(self.word.encode("utf-8"))
        return [self.status, headers, word, blob_of(self.name.encode("utf-8"))]


@dataclass(frozen=True)
class RetryAfter:
    """A header by which a service says how long to wait before a retry: in decimal digits."""

    header: str
    """Its name, in letters of any case."""
    unit: float = 1.0
    """How many seconds it counts in."""

    def form(self) -> List[Any]:
        return [self.header, nanoseconds(self.unit)]


@dataclass(frozen=True)
class Client:
    """An operation of a service, and its settings."""

    url: str
    """Where requests go. The path of a request is put behind it."""
    service: Optional[str] = None
    """Without it the client's name counts. Clients of one service share its own bucket."""
    operation: str = "operation"
    bucket: Optional[str] = None
    """One of the engine's buckets, which any clients may share. Without it the service's own has
    500 tokens, and gets one back for each success."""
    retry: Optional[Retry] = field(default_factory=Retry)
    """None makes one attempt."""
    connect_timeout: Optional[float] = None
    """Seconds until a connection stands."""
    read_timeout: Optional[float] = None
    """Seconds without a byte, while a response is read."""
    operation_timeout: Optional[float] = None
    """Seconds of all attempts, with the pauses between them."""
    attempt_timeout: Optional[float] = None
    """Seconds of one attempt."""
    stall_grace: Optional[float] = None
    """A body is watched where this is set: it fails where it was below a byte a second for more
    than so many seconds."""
    retried_statuses: Sequence[int] = RETRIED_STATUSES
    """Statuses that are transient failures."""
    errors: Sequence[ErrorRule] = (ErrorRule(429, "throttle"),)
    """Which responses are errors of a name. A response that meets none of these rules is an error
    without a name from 400 on, and else an output."""
    retry_after: Union[None, str, RetryAfter] = None
    """The header whose wait takes the place of a pause, up to `max_backoff`. A name, as
    `retry-after`, is one that counts in seconds. None waits for no header."""
    prefix: Optional[str] = None
    """A text before the host of the url."""
    auth: Sequence[AuthScheme] = ()
    """The schemes that may sign, the preferred one first. Without one requests aren't signed."""
    identity_cache: Optional[IdentityCache] = field(default_factory=IdentityCache)
    """None loads an identity for each attempt. Each seat has a cache of its own."""
    seats: int = 1
    """How many runs it may have at once. Further ones wait for their turn."""

    def __post_init__(self) -> None:
        if self.seats < 1:
            raise ValueError(f"a client has 1 seat or more, not {self.seats!r}")

    def form(self, name: str, bucket: Optional[int]) -> Any:
        """The client object of a description, by its name and the place of its bucket."""
        retry = self.retry
        return {
            "service": name if self.service is None else self.service,
            "operation": self.operation,
            "bucket": bucket,
            "retry": "never" if retry is None else retry.form(),
            "timeouts": self._timeouts(),
            "url": self.url,
            "prefix": self.prefix,
            "sleep": True,
            "time": True,
            "poisoning": retry is not None and retry.reconnect,
            "enforce": False,
            "v2": True,
            "stall": self._stall(),
            "classifiers": ["modeled", "transient", ["status", list(self.retried_statuses)]],
            "auth": self._auth(),
            "http_schemes": [form for form in (one.form() for one in self.auth) if form],
        }

    def error_rows(self) -> List[Any]:
        return [rule.form() for rule in self.errors]

    def retry_after_form(self) -> Optional[List[Any]]:
        header = self.retry_after
        if isinstance(header, str):
            header = RetryAfter(header)
        return None if header is None else header.form()

    def _timeouts(self) -> List[Optional[int]]:
        spans = [self.connect_timeout, self.read_timeout]
        spans += [self.operation_timeout, self.attempt_timeout]
        return [optional_nanoseconds(span) for span in spans]

    def _stall(self) -> Any:
        return None if self.stall_grace is None else [False, True, nanoseconds(self.stall_grace)]

    def _auth(self) -> Any:
        if not self.auth:
            return "none"
        ids = [scheme.id for scheme in self.auth]
        sources = [[scheme_id, 0, NO_IDENTITY] for scheme_id in ids]
        cache = "none" if self.identity_cache is None else self.identity_cache.form()
        return [ids, ids, sources, None, cache]
