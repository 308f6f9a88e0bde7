"""Requests of clients that expect the registry to die at any time."""
import http.client
import random

from crash.facts import Fault
from server import Client

BYTES = {"Content-Type": "application/octet-stream"}


class Interrupted(Exception):
    """The registry has ended, or is ending."""


class Asker:
    """Sends each request once. A request without a definite answer ends the client's work."""

    def __init__(self, name, facts, seed):
        self.name, self.facts, self.rng = name, facts, random.Random(seed)
        self.server = self.client = self.fault = None
        self.requests = 0

    def connects(self, server):
        self.server, self.client = server, Client(server.address)

    def asks(self, method, path, body=None, headers=(), wants=None):
        """Sends a request, and returns the response. Its status must be one of those wanted."""
        path = path if path.startswith("/") else f"/v2/{path}"
        self.requests += 1
        try:
            answer = self.client.ask_once(method, path, body, headers)
        except (OSError, http.client.HTTPException) as error:
            raise Interrupted(f"{method} {path}: {error!r}") from None
        # A write of the database that finds no room is rolled back, and the registry goes on.
        is_without_room = answer.status == 507 and self.server.may_end
        if answer.status in (500, 502, 503, 504) or is_without_room:
            raise Interrupted(f"{method} {path}: {answer.status} {answer.body[:200]}")
        if wants and answer.status not in wants:
            raise Fault(f"{self.name}: {method} {path}: {answer.status}, and not {wants}: {answer.body[:200]}")
        return answer

    def works(self, server):
        """Makes requests until the registry ends. Keeps the first fault."""
        self.connects(server)
        try:
            while not server.is_dying:
                self.turn()
        except Interrupted as error:
            if not server.is_dying and not server.may_end:
                self.fault = f"{self.name}: interrupted by a registry that nobody kills: {error}"
        except Fault as error:
            self.fault = str(error)
        except Exception as error:  # a fault of this test
            self.fault = f"{self.name}: {error!r}"
        finally:
            self.client.connection.close()

    def turn(self):
        raise NotImplementedError
