#!/usr/bin/env python3
"""Tests two registries with folders behind HAProxy with docs/haproxy.cfg, each of which names its own tenants alone. A tenant reaches the one
of its route, a tenant without a route none, and a request that names no tenant one that is there. After one is killed, its tenants get 503,
and after its restart they have their content; the tenants of the other one notice nothing."""
import contextlib, json, os, shutil, subprocess, tempfile

from documented import Shell
from playing import until
from server import Client, TOP, free_port, sha256

PATCH = {"Content-Type": "application/octet-stream"}

# The registry of each tenant.
ROUTES = {f"tenant{n}": "one" if n % 3 else "two" for n in range(8)}


class Registry:
    """A registry with a folder, which is started on the same address again."""

    def __init__(self, shell, name):
        self.shell, self.name, self.address = shell, name, f"127.0.0.1:{free_port()}"
        self.begin()

    def begin(self):
        quotas = " ".join(f"{tenant}=1000000" for tenant, name in ROUTES.items() if name == self.name)
        self.started = self.shell.start(f"registryd/run --data /srv/{self.name} {quotas}", self.address)
        self.started.wait()

    def kill(self):
        self.started.process.kill()
        self.started.process.wait()


@contextlib.contextmanager
def balancer(folder, one, two):
    """Runs HAProxy over two registries, and gives its address."""
    address = f"127.0.0.1:{free_port()}"
    docs = f"{os.path.dirname(TOP)}/docs"
    with open(f"{docs}/haproxy.cfg") as example:
        text = example.read()
    for old, new in (("127.0.0.1:5001", one.address), ("127.0.0.1:5002", two.address), ("*:5000", address)):
        assert text.count(old) in (1, 2), old
        text = text.replace(old, new)
    shutil.copy(f"{docs}/hold.lua", folder)
    routes = "".join(f"{tenant} {name}\n" for tenant, name in {**ROUTES, "misrouted": "three"}.items())
    for name, content in (("haproxy.cfg", text), ("routes.map", routes)):
        with open(f"{folder}/{name}", "w") as file:
            file.write(content)
    process = subprocess.Popen(["haproxy", "-db", "-q", "-f", f"{folder}/haproxy.cfg"])
    def replies():
        with contextlib.suppress(OSError):
            return Client(address).ask("GET", "/v2/").status == 200
    try:
        assert until(replies), "the balancer does not reply"
        yield address
    finally:
        process.terminate()
        process.wait()


def check_refused(address, tenant):
    """Checks that the balancer says that a tenant has no registry."""
    for method, path in (("GET", "manifests/v1"), ("POST", "blobs/uploads/"), ("GET", "tags/list")):
        answer = Client(address).ask(method, f"/v2/{tenant}/a/{path}")
        assert (answer.status, answer.code()) == (404, "NAME_UNKNOWN"), (tenant, method, answer.status)
        assert b"the balancer has no route for this tenant" in answer.body, answer.body


def play(one, two, address):
    client, digest = Client(address), sha256(b"abc")
    def statuses(path):
        return {tenant: client.ask("GET", f"/v2/{tenant}/a/{path}").status for tenant in ROUTES}
    for tenant in ROUTES:
        assert client.ask("POST", f"/v2/{tenant}/a/blobs/uploads/?digest={digest}", b"abc", PATCH).status == 201
        index = b'{"schemaVersion":2,"manifests":[]}'
        assert client.ask("PUT", f"/v2/{tenant}/a/manifests/v1", index).status == 201
    at = client.ask("POST", "/v2/tenant0/b/blobs/uploads/")["Location"]
    assert client.ask("PUT", f"{at}?digest={digest}", b"abc", PATCH).status == 201
    for server in (one, two):
        direct = Client(server.address)
        placed = {tenant: direct.ask("HEAD", f"/v2/{tenant}/a/blobs/{digest}").status for tenant in ROUTES}
        assert placed == {tenant: 200 if name == server.name else 404 for tenant, name in ROUTES.items()}, placed
    for tenant in ("unrouted", "misrouted", "tenant", "tenant00"):
        check_refused(address, tenant)
    listed = json.loads(client.ask("GET", "/v2/_catalog").body)["repositories"]
    assert listed == sorted(f"{tenant}/a" for tenant, name in ROUTES.items() if name == "one"), listed
    for dead in (one, two):
        dead.kill()
        # A connection that was open is not counted.
        assert until(lambda: Client(address).ask("GET", "/v2/").status == 200), "no registry answers although one is there"
        assert [Client(address).ask("GET", "/v2/").status for _ in range(10)] == [200] * 10
        assert until(lambda: Client(address).ask("GET", "/v2/_catalog").status == 200), "no registry lists its tenants"
        dead.begin()
        assert until(lambda: set(statuses("manifests/v1").values()) == {200})
    one.kill()
    found = statuses("manifests/v1")
    assert found == {tenant: 503 if name == "one" else 200 for tenant, name in ROUTES.items()}, found
    one.begin()
    assert set([*statuses("manifests/v1").values(), *statuses(f"blobs/{digest}").values()]) == {200}


def main():
    with tempfile.TemporaryDirectory(ignore_cleanup_errors=True) as folder:
        shell = Shell(folder)
        one, two = Registry(shell, "one"), Registry(shell, "two")
        try:
            with balancer(folder, one, two) as address:
                play(one, two, address)
        finally:
            one.kill()
            two.kill()
    print(f"balanced: {len(ROUTES)} tenants over two registries, each where its route says, also after SIGKILLs and restarts; others nowhere")


if __name__ == "__main__":
    main()
