"""The engine, as a caller sees it."""
import ssl
import threading
from contextlib import contextmanager, nullcontext
from typing import Dict, Iterator, List, Mapping, Optional

from .client import Bucket, Client, Sums
from .clock import Clock, nanoseconds
from .connections import Connections
from .decisions import are_logged, log
from .description import description_of
from .errors import EngineClosed, InvocationTimeout, ProgramEnded
from .identities import Vault
from .inbox import Inbox
from .messages import Request, Response
from .open_client import OpenClient
from .program import Path, Program, find_program, refusal_in
from .protocol import BucketSums
from .recording import Recording
from .run import Run, Terms
from .turns import Cancellation

FUEL = 100_000
PATIENCE = 5.0  # seconds that runs have to end, once the engine is closed


class Engine:
    """Sends requests. The proved program decides what is sent, signed, tried again and given up.

    All clients are in one program, a child process, and their runs go on beside each other. A
    client makes as many runs at once as it has seats: further ones wait for their turn, in the
    order in which they came. As a context manager it ends with all that is open, and leaves no
    process behind.

    clients: by names of your own.
    buckets: budgets of retries, by the names that clients have for them. Clients that name the
        same one share it.
    program: the path of `smithy_replay`. Without it the environment's WISHQORAM_PROGRAM counts,
        and else the repository that this package lies in.
    secrets: `"host"` keeps tokens and keys from the engine, which signs with stand-ins.
        `"engine"` hands them in, and so they are in recorded runs.
    fuel: the most questions of a run. One of three attempts asks about a hundred.
    ssl_context: for addresses of https; without it the system's authorities count.
    seed: makes the random parts of pauses the same each time: those of each seat. For tests.
    """

    def __init__(
        self,
        clients: Mapping[str, Client],
        buckets: Optional[Mapping[str, Bucket]] = None,
        *,
        program: Optional[Path] = None,
        secrets: str = "host",
        fuel: int = FUEL,
        ssl_context: Optional[ssl.SSLContext] = None,
        seed: Optional[int] = None,
    ):
        if secrets not in ("host", "engine"):
            raise ValueError('secrets is "host" or "engine"')
        self._clock = Clock()
        self._buckets = list(buckets or {})
        self._fuel = fuel
        self._recording: Optional[Recording] = None
        self._changed = threading.Condition()
        self._runs: List[Inbox] = []
        self._is_closed = False
        description = description_of(clients, buckets or {}, self._clock.now(), seed)
        self._program = Program(find_program(program), description, self._tell_end)
        self._clients: Dict[str, OpenClient] = {}
        first = 0
        for name, client in clients.items():
            seats = range(first, first + client.seats)
            first += client.seats
            connections = Connections(ssl_context, seats)
            vault = Vault(secrets == "host")
            open_client = OpenClient(self._program, name, client, seats, vault, connections)
            self._clients[name] = open_client

    def invoke(
        self,
        client: str,
        request: Request,
        *,
        timeout: Optional[float] = None,
        stream: bool = False,
        cancellation: Optional[Cancellation] = None,
    ) -> Response:
        """Sends a request by this client, as often as the engine says, and answers by a response.

        timeout: seconds until this call is given up, the wait for its turn included. The
            deadlines of the client, which the engine keeps, are another thing.
        stream: whether the response comes once 16384 bytes of its body are there, or all of it.
            The caller reads the rest. Without it the whole body is read.
        cancellation: what ends the call from another thread.

        Raises an `SdkError` where the engine says so, `InvocationTimeout` and `Cancelled` where
        the caller does, `BodyError` where the rest of a body broke off, and `EngineError` where
        the engine is closed or its program ended.
        """
        owner = self._client(client)
        until = None if timeout is None else self._clock.now() + nanoseconds(timeout)
        inbox = Inbox(self._clock)
        watched = nullcontext() if cancellation is None else cancellation.watching(inbox)
        with self._open_run(inbox), watched, owner.turns.turn(inbox, until) as seat:
            if seat is None:
                raise InvocationTimeout(timeout or 0.0)
            is_logged = self._is_recorded() or are_logged()
            terms = Terms(self._fuel, stream, is_logged, until, timeout or 0.0)
            run = Run(owner, seat, request, terms, inbox, self._clock)
            try:
                return run.drive()
            finally:
                self._record(client, run)

    def record(self, folder: Path) -> Recording:
        """Records each run that begins from now on and ends, in a folder, one file each.

        A run that its caller gave up isn't recorded, nor one that is `Unfinished`. There is one
        recording at a time: a further call takes the place of the one before.
        """
        self._recording = Recording(folder)
        return self._recording

    def sums(self) -> Dict[str, Sums]:
        """The tokens of each bucket, by its name."""
        replies = self._program.say(["sums"])
        refused = refusal_in(replies)
        if refused:
            raise refused
        sums = [Sums(*reply.sums) for reply in replies if isinstance(reply, BucketSums)]
        return dict(zip(self._buckets, sums))

    @property
    def process_id(self) -> int:
        """The program's process."""
        return self._program.id

    def close(self) -> None:
        """Ends all that is open. The runs raise `EngineClosed`. Waits until no process is left."""
        with self._changed:
            self._is_closed = True
            for inbox in self._runs:
                inbox.interrupt(EngineClosed())
            self._changed.wait_for(lambda: not self._runs, PATIENCE)
        for client in self._clients.values():
            client.connections.close()
        self._program.close()

    def __enter__(self) -> "Engine":
        return self

    def __exit__(self, *_: Optional[object]) -> None:
        self.close()

    def _client(self, name: str) -> OpenClient:
        try:
            return self._clients[name]
        except KeyError:
            raise ValueError(f"there is no client {name!r}") from None

    @contextmanager
    def _open_run(self, inbox: Inbox) -> Iterator[None]:
        """Counts a run as open, so that the engine's end ends it."""
        with self._changed:
            if self._is_closed:
                raise EngineClosed()
            self._runs.append(inbox)
        try:
            yield
        finally:
            with self._changed:
                self._runs.remove(inbox)
                self._changed.notify_all()

    def _tell_end(self, why: ProgramEnded) -> None:
        """Ends all runs, since the program ended."""
        with self._changed:
            for inbox in self._runs:
                inbox.interrupt(why)

    def _is_recorded(self) -> bool:
        return self._recording is not None and not self._recording.is_ended

    def _record(self, client: str, run: Run) -> None:
        """Records a run. Where that can't be done the log says so, and the run ends as it did."""
        recording, text = self._recording, run.printed()
        if recording is None or recording.is_ended or text is None:
            return
        try:
            recording.write(client, text)
        except OSError:
            log.exception("a run of %s can't be recorded in %s", client, recording.folder)
