#!/usr/bin/env python3
"""Types the commands of docs/MACHINES.md, "Several registries" and "Moving a tenant": moves a tenant from one registry to another
behind HAProxy, while clients push to it, one of them `skopeo`. No push fails, and what was acknowledged is at the new registry. Slow pulls go
on. --tags N --clients N: the number of tags before the move, and of clients that push."""
import argparse, json, os, re, signal, socket, sqlite3, tempfile, threading, time

from documented import Shell, blocks
from playing import until
from pushing import CONTENT, Raw, Skopeo, check_listed
from server import INDEX, MANIFEST, REGISTRYD, TOP, Client, free_port, manifest_of, serving, sha256

DOCUMENT = "docs/MACHINES.md"
TENANTS = {"one": ("acme=4000000000,65536", "other=1000000000,65536"), "two": ("acme=4000000000,65536",)}
DOCKER = "application/vnd.docker.distribution.manifest.v2+json"
EXAMPLES = "/usr/share/doc/registryd/examples"

# Each client has one upload open, and so has each worker of the command. Each image has a layer of its own.
ROOM = ("--uploads", "1024", "--slots", "65536")

# The time for which writes may wait. The goal is 2 s. Other tests may run at the same time.
MOST_SECONDS = 10


class Balancer:
    """The HAProxy that the document's commands start."""

    def __init__(self, folder, shell, starting, one, two):
        self.pid_file, port = f"{folder}/haproxy.pid", free_port()
        self.address = f"127.0.0.1:{port}"
        copy, routes, start = starting.splitlines()
        shell.type(copy)
        with open(f"{folder}/haproxy.cfg") as file:
            text = file.read()
        for old, new in (("127.0.0.1:5001", one.address), ("127.0.0.1:5002", two.address), ("*:5000", self.address)):
            assert text.count(old) in (1, 2), old
            text = text.replace(old, new)
        with open(f"{folder}/haproxy.cfg", "w") as file:
            file.write(text)
        shell.type(routes)
        shell.type(start)
        assert until(self.replies), "the balancer does not reply"

    def replies(self):
        try:
            return self.client().ask("GET", "/v2/").status == 200
        except OSError:
            return False

    def client(self):
        return Client(self.address)

    def end(self):
        if os.path.exists(self.pid_file):
            with open(self.pid_file) as file:
                os.kill(int(file.read()), signal.SIGTERM)


class SlowPull(threading.Thread):
    """Pulls a blob of a tenant slowly, but not so slowly that the registry ends it while others wait for memory. Checks its bytes."""

    SIZE = 30_000_000

    def __init__(self, address, repo):
        super().__init__(daemon=True)
        self.repo, self.data, self.is_hurried, self.got = repo, os.urandom(self.SIZE), threading.Event(), b""
        client = Client(address)
        assert client.ask("POST", f"/v2/{repo}/blobs/uploads/?digest={sha256(self.data)}", self.data, CONTENT).status == 201
        host, port = address.split(":")
        self.line = socket.create_connection((host, int(port)), timeout=60)
        self.line.setsockopt(socket.SOL_SOCKET, socket.SO_RCVBUF, 16384)
        self.line.sendall(f"GET /v2/{repo}/blobs/{sha256(self.data)} HTTP/1.0\r\nHost: x\r\n\r\n".encode())
        self.start()

    def run(self):
        while part := self.line.recv(1 << 16):
            self.got += part
            if not self.is_hurried.is_set():
                time.sleep(0.3)

    def check(self):
        """Checks that it was not at its end before, and lets it get the rest."""
        assert len(self.got) < self.SIZE - 1_000_000, "the pull was not slow"
        self.is_hurried.set()
        self.join(300)
        assert self.got.split(b"\r\n\r\n", 1)[1] == self.data, (self.repo, len(self.got))


class Probe(threading.Thread):
    """Opens and abandons uploads of a tenant, and notes the longest time that one took."""

    def __init__(self, address, repo):
        super().__init__(daemon=True)
        self.client, self.repo, self.longest, self.wrong, self.is_stopped = Client(address), repo, 0, [], threading.Event()
        self.start()

    def run(self):
        while not self.is_stopped.wait(0.02):
            begun = time.time()
            opened = self.client.ask("POST", f"/v2/{self.repo}/blobs/uploads/")
            self.longest = max(self.longest, time.time() - begun)
            ended = self.client.ask("DELETE", opened["Location"]).status if opened.status == 202 else None
            if (opened.status, ended) != (202, 204):
                self.wrong.append((opened.status, opened.body, ended))

    def stop(self, printed):
        self.is_stopped.set()
        self.join(60)
        assert not self.wrong, f"writes failed: {self.wrong[:5]}: {printed}"
        return self.longest


def push_unusual(client):
    """Pushes what no tag lists: a manifest without a tag, one with a media type of its own, artifacts, one of which has a subject, and an
    index of some of them and of a manifest that is missing."""
    base = "/v2/acme/deep/er"
    put = lambda reference, body, kind: client.ask("PUT", f"{base}/manifests/{reference}", body, {"Content-Type": kind}).status
    for data in (b"{}", b"layer"):
        assert client.ask("POST", f"{base}/blobs/uploads/?digest={sha256(data)}", data, CONTENT).status == 201
    plain = manifest_of(b"{}", [b"layer"])
    docker, artifact = plain.decode(), plain.replace(b"image.config.v1+json", b"chart.config.v1+json")
    for old, new in ((MANIFEST, DOCKER), ("application/vnd.oci.image.config.v1+json", "application/vnd.docker.container.image.v1+json"),
                     ("application/vnd.oci.image.layer.v1.tar", "application/vnd.docker.image.rootfs.diff.tar.gzip")):
        assert old in docker, old
        docker = docker.replace(old, new)
    docker = docker.encode()
    descriptor = lambda kind, body: '{"mediaType":"%s","digest":"%s","size":%d}' % (kind, sha256(body), len(body))
    subject = b'"subject":' + descriptor(MANIFEST, plain).encode()
    referrer = artifact[:-1] + b"," + subject + b"}"
    parts = ",".join(descriptor(kind, body) for kind, body in ((MANIFEST, plain), (DOCKER, docker), (MANIFEST, b"missing")))
    index = ('{"schemaVersion":2,"mediaType":"%s","manifests":[%s]}' % (INDEX, parts)).encode()
    kinds = {plain: MANIFEST, artifact: MANIFEST, referrer: MANIFEST, docker: DOCKER, index: INDEX}
    for body, kind in kinds.items():
        assert put(sha256(body), body, kind) == 201, kind
    for tag in ("all", "latest"):
        assert put(tag, index, INDEX) == 201
    return kinds


def referrers(client, kinds):
    """Returns the list of referrers of the manifest without a tag."""
    answer = client.ask("GET", f"/v2/acme/deep/er/referrers/{sha256(next(iter(kinds)))}")
    found = json.loads(answer.body)["manifests"]
    assert answer.status == 200 and len(found) == 1, answer.body
    return found


def check_unusual(client, kinds):
    for reference, body in [*((sha256(body), body) for body in kinds), ("all", next(body for body in kinds if kinds[body] == INDEX))]:
        answer = client.ask("GET", f"/v2/acme/deep/er/manifests/{reference}")
        assert (answer.status, answer.body, answer["Content-Type"]) == (200, body, kinds[body]), (reference, answer.status)


def push_many(client, count):
    """Pushes a number of images with a tag each into one repository. Returns the manifests."""
    for data in (b"{}", b"shared"):
        assert client.ask("POST", f"/v2/acme/many/blobs/uploads/?digest={sha256(data)}", data, CONTENT).status == 201
    pushed = []
    for number in range(count):
        manifest = manifest_of(b"{}", [b"shared"])[:-1] + b',"annotations":{"number":"%d"}}' % number
        assert client.ask("PUT", f"/v2/acme/many/manifests/t{number}", manifest, {"Content-Type": MANIFEST}).status == 201
        pushed.append(manifest)
    return pushed


def check_many(client, pushed):
    tags = []
    last = ""
    while True:
        answer = client.ask("GET", f"/v2/acme/many/tags/list?n=1000&last={last}")
        names = json.loads(answer.body)["tags"]
        tags += names
        if not names or not answer["Link"]:
            break
        last = names[-1]
    assert set(tags) == {f"t{number}" for number in range(len(pushed))} and len(tags) == len(pushed), len(tags)
    for number in range(0, len(pushed), max(1, len(pushed) // 200)):
        assert client.ask("GET", f"/v2/acme/many/manifests/t{number}").body == pushed[number], number


def check_deleted(folder, server, pusher, images):
    """Checks that the registry that had the tenant has none of its manifests, nor their blobs."""
    with sqlite3.connect(f"file:{folder}/registry.db?mode=ro", uri=True) as database:
        assert database.execute("SELECT count(*) FROM manifests WHERE repository GLOB 'acme/*'").fetchone() == (0,)
    client = server.client()
    for manifest, layer in images.values():
        for path in (f"manifests/{sha256(manifest)}", f"blobs/{sha256(layer)}"):
            assert client.ask("HEAD", f"/v2/{pusher.repo}/{path}").status == 404, path


def check_closed(server):
    """Checks that the registry that the tenant has left refuses its writes."""
    refused = server.client().ask("POST", "/v2/acme/raw/blobs/uploads/")
    assert (refused.status, refused["Retry-After"]) == (429, "2") and b"has moved to" in refused.body, (refused.status, refused.body)


def play(options, folder, shell, command, balancer, one, two):
    kinds, many = push_unusual(balancer.client()), push_many(balancer.client(), options.tags)
    before = referrers(balancer.client(), kinds)
    pulls = [SlowPull(balancer.address, repo) for repo in ("other/slow", "acme/slow")]
    pushers = [Raw(balancer.address, f"acme/raw{number}", pause=options.clients / 25) for number in range(options.clients)]
    pushers.append(Skopeo(balancer.address, "acme/skopeo", pause=0.3))
    still, probe = Raw(balancer.address, "other/raw", pause=0.5), Probe(balancer.address, "acme/probe")
    for pusher in pushers:
        pusher.wait_for(1, 300)
    printed = shell.type(command)
    longest = probe.stop(printed)
    for pusher in pushers:
        pusher.wait_for(1, 300)
    pushed = [pusher.stop() for pusher in pushers]
    failed = sum(pusher.failed for pusher in pushers)
    assert failed == 0, f"{failed} pushes failed:\n{printed}"
    seconds = float(re.search(r"not writable for ([0-9.]+) s", printed).group(1))
    assert seconds <= longest + 0.5 and longest < MOST_SECONDS, (seconds, longest, printed)
    for pull in pulls:
        pull.check()
    for client in (balancer.client(), two.client()):
        for pusher, images in zip(pushers, pushed):
            pusher.check(client, images)
            assert set(check_listed(client, pusher.repo)) == set(images)
        check_unusual(client, kinds)
        assert referrers(client, kinds) == before
        check_many(client, many)
    others = still.stop()
    assert still.failed == 0, f"{still.failed} pushes of the other tenant failed"
    still.check(balancer.client(), others)
    check_closed(one)
    check_deleted(f"{folder}/srv/one", one, pushers[0], pushed[0])
    images = sum(map(len, pushed)) + len(many)
    return f"{images} images, {options.clients + 1} clients, none failed, not writable for {seconds:.2f} s, longest write {longest:.2f} s\n{printed}"


def main():
    parser = argparse.ArgumentParser()
    parser.add_argument("--tags", type=int, default=300)
    parser.add_argument("--clients", type=int, default=20)
    options = parser.parse_args()
    (starting,), (command,) = blocks(DOCUMENT, "Several registries"), blocks(DOCUMENT, "Moving a tenant")
    with tempfile.TemporaryDirectory(ignore_cleanup_errors=True) as folder:
        os.makedirs(f"{folder}/srv")
        def words(name):
            return ("--data", f"{folder}/srv/{name}", "--control", f"{folder}/srv/{name}/control", "--lines", "16", "--sweep-ms", "50", *ROOM)
        with serving(*words("one"), tenants=TENANTS["one"]) as one, serving(*words("two"), tenants=TENANTS["two"]) as two:
            replaced = {EXAMPLES: f"{os.path.dirname(TOP)}/docs", "registryd move": f"{REGISTRYD} move"}
            shell = Shell(folder, {"127.0.0.1:5001": one.address, "127.0.0.1:5002": two.address, **replaced})
            balancer = Balancer(folder, shell, starting, one, two)
            try:
                moved = play(options, folder, shell, command, balancer, one, two)
            finally:
                balancer.end()
            for server in (one, two):
                assert server.end() == 0, server.logged()[-1500:]
    print(f"moving: {moved}")


if __name__ == "__main__":
    main()
