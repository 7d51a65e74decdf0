"""One run: the engine's questions, and what comes of them outside."""
import json
import logging
import threading
from typing import Any, Dict, List, NamedTuple, Optional

from .bodies import OutgoingBody, outgoing
from .clock import NANOSECONDS, Clock, earliest
from .connections import Call, Reading
from .decisions import log_decisions
from .endings import raise_ending, response_in
from .errors import EngineError, InvocationTimeout
from .identities import AuthScheme, Vault, identity_of
from .inbox import Event, Inbox
from .messages import Request, Response
from .open_client import OpenClient
from .program import refusal_in
from .protocol import Begin, Done, Entry, LoadIdentity, Park, Poison, Reply
from .protocol import OUTPUT_KIND, blob_of, header_rows
from .recording import head_of

log = logging.getLogger("wishqoram")

WATCH = 100_000_000  # ns: the engine's guard of streams judges by what tenths of a second show


class Terms(NamedTuple):
    """How a run is made."""

    fuel: int
    """The most questions that it asks."""
    is_streamed: bool
    """Whether the caller reads the rest of a long body."""
    is_logged: bool
    """Whether the engine tells its log at the end."""
    until: Optional[int]
    """The moment when its caller gives it up."""
    timeout: float
    """The seconds that this was from the beginning."""


class Load:
    """An identity that is loaded, in a thread of its own."""

    def __init__(self, scheme: AuthScheme, vault: Vault, inbox: Inbox):
        self.id = scheme.id
        self.error: Optional[BaseException] = None
        self._scheme, self._vault, self._inbox = scheme, vault, inbox

    def start(self) -> None:
        threading.Thread(target=self._work, name=f"load {self.id}", daemon=True).start()

    def _work(self) -> None:
        try:
            identity = identity_of(self._scheme.source())
            handed = self._vault.handed(bytes(identity.data))  # type: ignore[arg-type]
            expires = None if identity.expires is None else round(identity.expires * NANOSECONDS)
            message = ["identity", self.id, [blob_of(handed), expires]]
        except BaseException as error:
            self.error = error
            message = ["no_identity", self.id, f"no identity: {type(error).__name__}"]
        self._inbox.put(Event(self, message))


class Run:
    """One run at a seat, driven by its caller's thread."""

    def __init__(
        self,
        owner: OpenClient,
        seat: int,
        request: Request,
        terms: Terms,
        inbox: Inbox,
        clock: Clock,
    ):
        self._owner, self._seat = owner, seat
        self._terms, self._inbox, self._clock = terms, inbox, clock
        self._body: OutgoingBody = outgoing(request.body)
        self._payload = self._payload_of(request)
        self._reading = Reading(owner.client.stall_grace is not None, terms.is_streamed)
        self._calls: List[Call] = []
        self._captured: Dict[int, Call] = {}
        self._call: Optional[Call] = None
        self._load: Optional[Load] = None
        self._wake: Optional[int] = None
        self._entries: List[Entry] = []
        self._done: Optional[Done] = None
        self._cause: Optional[BaseException] = None

    def _payload_of(self, request: Request) -> Any:
        headers = header_rows(request.header_pairs())
        form = [request.method, request.path, headers, self._body.form()]
        text = json.dumps(form, separators=(",", ":"))
        return [OUTPUT_KIND, blob_of(text.encode("ascii"))]

    def drive(self) -> Response:
        """Drives the run to its end, and answers by its response or raises its error."""
        done = self._driven()
        log_decisions(self._owner.name, self._entries, done, len(self._calls))
        last = self._calls[-1] if self._calls else None
        try:
            response = response_in(done.ending, last, len(self._calls))
            raise_ending(done.ending, response, len(self._calls), self._cause)
            self._await_body(last)
            assert response is not None
            return response
        except BaseException:
            self._drop_all()
            raise

    def printed(self) -> Optional[bytes]:
        """The print of a run that is over and was logged, unless it used its questions up."""
        if self._done is None or not self._terms.is_logged or self._done.ending == ["Unfinished"]:
            return None
        lines = [entry.text + b"\n" for entry in self._entries]
        head = head_of(self._payload, self._terms.fuel)
        return b"".join([head, *lines, self._done.text, b"\n"])

    def _driven(self) -> Done:
        terms = self._terms
        begin = ["invoke", self._seat, self._clock.now(), self._payload]
        try:
            self._take([*begin, terms.fuel, "None", terms.is_logged])
            while self._done is None:
                events = self._await_events()
                self._take(["at", self._seat, self._clock.now(), events])
            return self._done
        except BaseException:
            self._give_up()
            raise

    def _take(self, message: List[Any]) -> None:
        """Says something, and does what the engine answers."""
        replies = self._owner.program.say(message)
        refused = refusal_in(replies)
        if refused:
            raise refused
        for reply in replies:
            self._obey(reply)

    def _obey(self, reply: Reply) -> None:
        if isinstance(reply, Begin):
            self._begin(reply)
        elif isinstance(reply, LoadIdentity):
            self._load = Load(self._owner.scheme(reply.scheme), self._owner.vault, self._inbox)
            log.debug("%s: loads an identity of %s", self._owner.name, reply.scheme)
            self._load.start()
        elif isinstance(reply, Poison):
            self._poison(reply)
        elif isinstance(reply, Park):
            self._park(reply)
        elif isinstance(reply, Entry):
            self._entries.append(reply)
        elif isinstance(reply, Done):
            self._done = reply

    def _begin(self, begin: Begin) -> None:
        if self._call is not None:
            self._call.drop()
        number = len(self._calls) + 1
        log.debug("%s: request %d goes out", self._owner.name, number)
        owner = self._owner
        call = owner.connections.begin(begin, self._body, owner.vault, self._reading, self._inbox)
        self._calls.append(call)
        self._call = call
        if begin.capture is not None:
            self._captured[begin.capture] = call

    def _poison(self, poison: Poison) -> None:
        """Closes a connection. That the open call breaks off by this is no news for the engine,
        which doesn't read on."""
        log.debug("%s: connection %d isn't used again", self._owner.name, poison.capture)
        call = self._captured[poison.capture]
        call.poison()
        if call is self._call:
            self._call = None

    def _park(self, park: Park) -> None:
        """Gives up what isn't open any more, and remembers when to wake."""
        self._wake = park.wake
        if self._call is not None and self._call.number != park.call:
            self._call.drop()
            self._call = None
        if self._load is not None and self._load.id != park.scheme:
            self._load = None
        if park.call is None and park.scheme is None and park.wake is not None:
            pause = max(0, park.wake - self._clock.now()) / NANOSECONDS
            log.debug("%s: waits %.3f s", self._owner.name, pause)

    def _await_events(self) -> List[Any]:
        """What came of what is open. Nothing, where it is time to wake the run."""
        until = earliest(self._wake, self._terms.until, self._watch())
        while True:
            came = [event for event in self._inbox.take(until) if self._is_open(event.source)]
            now = self._clock.now()
            if self._terms.until is not None and now >= self._terms.until:
                raise InvocationTimeout(self._terms.timeout)
            if came or (until is not None and now >= until):
                return [self._told(event) for event in came]

    def _watch(self) -> Optional[int]:
        """When the engine's guard looks at an open body again."""
        if self._reading.is_watched and self._call is not None and self._call.has_head:
            return self._clock.now() + WATCH
        return None

    def _is_open(self, source: object) -> bool:
        return source is self._call or source is self._load

    def _told(self, event: Event) -> List[Any]:
        source, message = event.source, event.message
        error = getattr(source, "error", None)
        self._cause = error or self._cause
        if message[0] == "response":
            self._cause = None
            log.debug("%s: request %d gets %d", self._owner.name, len(self._calls), message[2])
        if message[0] == "data":
            return [*message[:2], blob_of(bytes(message[2]))]
        return message

    def _await_body(self, last: Optional[Call]) -> None:
        """Waits until the rest of the body was read, unless the caller reads it."""
        until = self._terms.until
        while last is not None and not last.body.is_settled:
            self._inbox.take(until)
            if until is not None and self._clock.now() >= until and not last.body.is_settled:
                raise InvocationTimeout(self._terms.timeout)
        if last is not None and not self._terms.is_streamed:
            last.body.read()

    def _give_up(self) -> None:
        """Ends a run that isn't over: with the engine, and outside."""
        self._drop_all()
        if self._done is not None:
            return
        try:
            replies = self._owner.program.say(["give_up", self._seat, self._clock.now()])
        except EngineError:
            return  # it is told as what ended the run
        for reply in replies:
            if isinstance(reply, Poison):
                self._obey(reply)

    def _drop_all(self) -> None:
        for call in self._calls:
            call.drop()
