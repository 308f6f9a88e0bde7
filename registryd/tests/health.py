#!/usr/bin/env python3
"""Tests what a registry tells those who watch it: its paths for that, the time in which it is about to stop, and the form of its log."""
import contextlib, http.client, json, signal, time

from playing import play, until
from restarts import folder, pulled, pushed
from server import MANIFEST, Server, free_port, serving

PATHS = ("/livez", "/healthz", "/readyz")


def statuses(server):
    """Returns the statuses of the paths, each on a connection of its own."""
    return [server.client().ask("GET", path).status for path in PATHS]


def paths_need_no_password_and_are_ready():
    with folder() as path, serving("--data", path) as server:
        assert statuses(server) == [200] * 3, statuses(server)
        server.end()


def a_registry_that_is_about_to_stop_serves():
    with folder() as path, serving("--data", path, "--drain-s", "4") as server:
        image, client = pushed(server.client()), server.client()
        assert client.ask("GET", "/readyz").status == 200
        begun = time.time()
        server.process.send_signal(signal.SIGTERM)
        assert until(lambda: client.ask("GET", "/readyz").status == 503), "it is ready although it is about to stop"
        assert statuses(server) == [200, 200, 503], statuses(server)
        pushed(server.client(), tag="v2", layer=b"another")
        for tag in ("v1", "v2"):
            assert pulled(server.client(), "acme/one", tag)[1] == MANIFEST, tag
        assert pulled(server.client(), "acme/one", "v1")[0] == image
        assert time.time() - begun < 3 and server.process.poll() is None, "the machine is too slow for this test"
        assert server.process.wait(timeout=30) == 0 and time.time() - begun >= 4, "it did not wait"


def a_second_signal_ends_the_wait():
    with serving("--drain-s", "3600") as server:
        server.process.send_signal(signal.SIGTERM)
        server.wait_for("draining seconds=3600")
        server.process.send_signal(signal.SIGTERM)
        assert server.process.wait(timeout=30) == 0


class Json(Server):
    """A registry whose log is in JSON."""

    def __init__(self):
        super().__init__("--log-format", "json")

    def listens(self, seconds=60):
        self.address = self.wait_for(r'"message":"listening","address":"([^"]+)"', seconds)


class Quiet(Server):
    """A registry with few slots that does not log its address. It is asked at the address of its metrics."""

    def __init__(self, level):
        self.address = f"127.0.0.1:{free_port()}"
        super().__init__("--slots", "1000", "--metrics-listen", self.address, "--log-level", level)

    def listens(self, seconds=60):
        def is_healthy():
            with contextlib.suppress(OSError, http.client.HTTPException):
                return self.client().ask("GET", "/healthz").status == 200
        assert until(is_healthy, seconds), self.logged()


def a_log_in_json_has_an_object_in_each_line():
    server = Json()
    assert server.client().ask("GET", "/v2/acme/one/tags/list").status == 404
    assert server.end() == 0
    lines = [json.loads(line) for line in server.logged().splitlines() if not line.startswith("blobd: ")]
    assert all({"timestamp", "level", "fields", "target"} <= set(line) for line in lines), lines
    assert {line["fields"].get("message") for line in lines} >= {"listening", "stopping", "stopped"}, lines
    assert any(line["fields"].get("path") == "/v2/acme/one/tags/list" for line in lines), lines


def messages_below_the_level_are_left_out():
    """The shares of the tenants exceed the slots, of which a start warns."""
    for level, warns in (("warn", True), ("error", False)):
        server = Quiet(level)
        assert server.end() == 0
        assert " INFO " not in server.logged() and ("exceed the slots" in server.logged()) == warns, server.logged()


def main():
    play("health", [
        paths_need_no_password_and_are_ready, a_registry_that_is_about_to_stop_serves, a_second_signal_ends_the_wait,
        a_log_in_json_has_an_object_in_each_line, messages_below_the_level_are_left_out])


if __name__ == "__main__":
    main()
