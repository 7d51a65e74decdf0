"""A client of the engine's program, and what its runs share."""
from typing import Sequence

from .client import Client
from .connections import Connections
from .identities import AuthScheme, Vault
from .program import Program
from .turns import Turns


class OpenClient:
    """A client with its seats in the program, its connections and the secrets of its identities."""

    def __init__(
        self,
        program: Program,
        name: str,
        client: Client,
        seats: Sequence[int],
        vault: Vault,
        connections: Connections,
    ):
        self.program, self.name, self.client = program, name, client
        self.vault, self.connections = vault, connections
        self.turns = Turns(seats)

    def scheme(self, scheme_id: str) -> AuthScheme:
        return next(scheme for scheme in self.client.auth if scheme.id == scheme_id)
