"""The first line that the engine's program is told: its clients and their buckets."""
import random
from typing import Any, List, Mapping, Optional

from .client import Bucket, Client

SEED_BITS = 64


def description_of(
    clients: Mapping[str, Client], buckets: Mapping[str, Bucket], start: int, seed: Optional[int]
) -> Any:
    """Describes the clients in their order, each as often as it has seats.

    start: the present moment.
    seed: what the seats' own seeds are counted on from. Without it each is drawn.
    """
    seats: List[Any] = []
    for name, client in clients.items():
        seat = {
            "client": client.form(name, _place(client, buckets)),
            "errors": client.error_rows(),
            "retry_after": client.retry_after_form(),
        }
        for _ in range(client.seats):
            own = _drawn() if seed is None else seed + len(seats)
            seats.append({**seat, "seed": own})
    return {
        "buckets": [bucket.form() for bucket in buckets.values()],
        "start": start,
        "clients": seats,
    }


def _drawn() -> int:
    return random.SystemRandom().getrandbits(SEED_BITS)


def _place(client: Client, buckets: Mapping[str, Bucket]) -> Optional[int]:
    """The place of the client's bucket, where it names one."""
    if client.bucket is None:
        return None
    if client.bucket not in buckets:
        raise ValueError(f"there is no bucket {client.bucket!r}")
    return list(buckets).index(client.bucket)
