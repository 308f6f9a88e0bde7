#!/usr/bin/env python3
"""Tests logins during floods of wrong passwords, and after the file of users is read again."""
import http.client, select, socket

from hardships import head_of
from limits import COSTLY, basic, users
from playing import play
from server import serving

FLOOD = 400


class Flood:
    """Many wrong passwords at once. `words_of` and `address_of` return the credentials and the address of each request."""

    def __init__(self, server, words_of, address_of):
        host, port = server.address.rsplit(":", 1)
        self.lines = []
        for number in range(FLOOD):
            self.lines.append(socket.create_connection((host, int(port)), 60, (address_of(number), 0)))
            self.lines[-1].sendall(head_of("GET", "", Authorization=basic(words_of(number))["Authorization"]))
        assert select.select(self.lines, [], [], 30)[0], "no request of the flood has a response"

    def __enter__(self):
        return self

    def __exit__(self, *_):
        for line in self.lines:
            line.close()

    def checked(self):
        """Returns the number of passwords that were found wrong since the last call."""
        ready = select.select(self.lines, [], [], 0)[0]
        return sum(line.recv(1000).startswith(b"HTTP/1.1 401") for line in ready)


def status(server, words, address="127.0.0.1"):
    """Returns the status of a request with credentials from an address."""
    connection = http.client.HTTPConnection(server.address, timeout=60, source_address=(address, 0))
    connection.request("GET", "/v2/", headers=basic(words))
    return connection.getresponse().status


def a_first_login_passes_a_flood(words_of, address_of, user, address):
    with users(f"acme:{COSTLY}", f"other:{COSTLY}") as file, serving("--htpasswd", file) as server:
        with Flood(server, words_of, address_of) as flood:
            flood.checked()
            answer = status(server, f"{user}:secret", address)
            checked = flood.checked()
            assert answer == 200 and checked < 20, (user, address, answer, checked)


def users_stay_known_when_their_file_is_read_again():
    with users(f"acme:{COSTLY}", f"other:{COSTLY}") as file, serving("--htpasswd", file) as server:
        assert [status(server, f"{user}:secret") for user in ("acme", "other")] == [200, 200]
        with open(file, "w") as text:
            text.write(f"new:{COSTLY}\nacme:{COSTLY}\nother:!\n")
        server.reload("read the users again")
        with Flood(server, lambda number: f"acme:{number}", lambda number: "127.0.0.1"):
            # A check for the address and the user of the flood would be refused.
            assert status(server, "acme:wrong") == 503
            assert status(server, "acme:secret") == 200
        assert status(server, "other:secret", "127.0.0.2") == 401, "a password is known whose line has changed"


def main():
    one = lambda number: "127.0.0.1"
    many = lambda number: f"127.0.1.{number % 250 + 1}"
    few = lambda number: f"127.0.1.{number % 9 + 1}"
    acme, invented = (lambda number: f"acme:{number}"), (lambda number: f"user{number}:{number}")
    play("floods", [
        (a_first_login_passes_a_flood, acme, one, "other", "127.0.0.2"),
        (a_first_login_passes_a_flood, acme, many, "other", "127.0.0.1"),
        (a_first_login_passes_a_flood, acme, few, "acme", "127.0.0.1"),
        (a_first_login_passes_a_flood, invented, one, "other", "127.0.0.2"),
        # Behind a proxy all clients have one address.
        (a_first_login_passes_a_flood, acme, one, "other", "127.0.0.1"),
        (a_first_login_passes_a_flood, invented, one, "other", "127.0.0.1"),
        users_stay_known_when_their_file_is_read_again])


if __name__ == "__main__":
    main()
