#!/usr/bin/env python3
"""Tests moves of tenants that do not go well: the command is killed before and after each of its steps and started again while clients write
to both registries directly, registries are killed, the target is down, small or has other content, uploads stay open, moves are given up,
robots arrive with their tenant or are refused."""
import concurrent.futures, contextlib, http.client, json, re, shutil, signal, socket, subprocess, tempfile, threading, time

import robots
from limits import CHEAP, basic, users
from playing import play, until
from pushing import CONTENT
from server import INDEX, MANIFEST, REGISTRYD, Client, Server, manifest_of, sha256

# The requests of the command at which it is killed, before they are made and after their replies are sent, by the words of `label`.
STEPS = ("receive", "copy", "contents", "hold", "close", "rest", "leave", "open", "switch")

# The tenants of a test that needs one.
ACME = ("acme=1000000000,65536",)


def label(request, earlier):
    """Returns the word for a request of the command to a registry or to HAProxy. The contents are listed for the rest after the close."""
    for word in ("receive", "copy", "robots", "close", "leave", "open"):
        if b'"step":"%s"' % word.encode() in request:
            return word
    if b"/contents HTTP" in request:
        return "rest" if "close" in earlier else "contents"
    if request.startswith(b"set map"):
        return "hold" if b"/hold" in request else "switch"
    return "other"


class Gate:
    """A socket in front of another, which kills the command of its owner at a step, before the request is passed on or after it is made."""

    def __init__(self, folder, name, target, kill):
        self.path, self.target, self.kill = f"{folder}/{name}", target, kill
        self.listener = socket.socket(socket.AF_UNIX)
        self.listener.bind(self.path)
        self.listener.listen(64)
        threading.Thread(target=self.serve, daemon=True).start()

    def serve(self):
        with contextlib.suppress(OSError):
            while True:
                line = self.listener.accept()[0]
                threading.Thread(target=self.pass_on, args=(line,), daemon=True).start()

    def pass_on(self, line):
        with contextlib.suppress(OSError), line, socket.socket(socket.AF_UNIX) as other:
            request = whole(line)
            if self.kill(request, "before", b""):
                return
            other.connect(self.target)
            other.sendall(request)
            reply = b""
            while part := other.recv(1 << 16):
                reply += part
            if not self.kill(request, "after", reply):
                line.sendall(reply)

    def close(self):
        self.listener.close()


def whole(line):
    """Reads a request of HTTP, or a line."""
    request = b""
    while part := line.recv(1 << 16):
        request += part
        head, end, body = request.partition(b"\r\n\r\n")
        length = re.search(rb"content-length: (\d+)", head, re.IGNORECASE)
        if (end and len(body) >= int(length.group(1) if length else 0)) or (not b"HTTP/1" in request and request.endswith(b"\n")):
            break
    return request


class FakeBalancer:
    """Replies to the commands for HAProxy with the route of one tenant, and keeps it."""

    def __init__(self, folder, tenant):
        self.path, self.tenant, self.route = f"{folder}/haproxy.sock", tenant, "one"
        self.listener = socket.socket(socket.AF_UNIX)
        self.listener.bind(self.path)
        self.listener.listen(64)
        self.routes = f"{folder}/routes.map"
        with open(self.routes, "w") as file:
            file.write(f"other one\n{tenant} one\n")
        threading.Thread(target=self.serve, daemon=True).start()

    def serve(self):
        with contextlib.suppress(OSError):
            while True:
                line = self.listener.accept()[0]
                with line:
                    line.sendall(self.reply(whole(line).decode().split()).encode())

    def reply(self, words):
        if words == ["show", "map", "routes.map"]:
            return f"0x1 other one\n0x2 {self.tenant} {self.route}\n\n"
        if words[:3] == ["show", "servers", "state"]:
            return f"1\n# head\n4 {words[3]} 1 {words[3]} 127.0.0.1 2\n\n"
        if words[:4] == ["set", "map", "routes.map", self.tenant]:
            self.route = words[4]
            return "\n"
        return "Unknown command.\n\n"

    def words(self):
        return ["--server", "two", "--haproxy", self.path, "--routes", self.routes]

    def file(self):
        with open(self.routes) as file:
            return file.read()


class Pair:
    """Two registries with folders and sockets."""

    def __init__(self, folder, *words, tenants=ACME, two=None, two_words=()):
        self.folder, self.words, self.tenants = folder, words, {"one": tenants, "two": two or tenants}
        self.more = {"one": (), "two": two_words}
        self.one, self.two = self.begin("one"), self.begin("two")

    def begin(self, name):
        data = f"{self.folder}/{name}"
        words = ("--data", data, "--control", f"{data}.control", "--lines", "8", "--sweep-ms", "50", *self.words, *self.more[name])
        return Server(*words, tenants=self.tenants[name])

    def restart(self, name):
        """Kills a registry, and starts it again."""
        server = getattr(self, name)
        server.process.kill()
        server.process.wait()
        setattr(self, name, self.begin(name))

    def control(self, name):
        return f"{self.folder}/{name}.control"

    def command(self, tenant, *words, one=None, two=None, back=False):
        """Returns the words of a move from the first to the second registry, or back."""
        sides = [(self.one, one or self.control("one")), (self.two, two or self.control("two"))]
        (source, from_control), (target, to_control) = sides[::-1] if back else sides
        return [REGISTRYD, "move", tenant, "--from", f"http://{source.address}", "--to", f"http://{target.address}",
                "--from-control", from_control, "--to-control", to_control, *words]

    def move(self, tenant="acme", *words, **options):
        """Moves a tenant, and returns what is printed."""
        ended = subprocess.run(self.command(tenant, *words, **options), stdout=subprocess.PIPE, stderr=subprocess.PIPE, text=True, timeout=120)
        assert ended.returncode == 0, f"{tenant}: {ended.stdout}{ended.stderr}"
        return ended.stdout + ended.stderr

    def fails(self, tenant="acme", *words, **options):
        """Makes a move that fails, and returns the message."""
        ended = subprocess.run(self.command(tenant, *words, **options), stdout=subprocess.PIPE, stderr=subprocess.PIPE, text=True, timeout=120)
        assert ended.returncode == 1 and ended.stderr.startswith("registryd: "), (ended.returncode, ended.stdout, ended.stderr)
        return ended.stderr

    def asked(self, name, method, path, content=b""):
        """Sends a request to the socket of a registry. Returns the status and the value of the reply."""
        with socket.socket(socket.AF_UNIX) as line:
            line.connect(self.control(name))
            line.sendall(b"%s %s HTTP/1.1\r\nHost: x\r\nContent-Length: %d\r\n\r\n%s" % (method.encode(), path.encode(), len(content), content))
            reply = b""
            while part := line.recv(1 << 16):
                reply += part
        return int(reply.split()[1]), json.loads(reply.split(b"\r\n\r\n", 1)[1])

    def stages(self, tenant="acme"):
        """Returns the stages of a tenant's move at both registries, which may have users."""
        return tuple(self.asked(name, "GET", f"/moves/{tenant}")[1]["stage"] for name in ("one", "two"))

    def stage(self, name, tenant="acme"):
        """Returns the stage of a tenant's move at a registry."""
        tenants = json.loads(getattr(self, name).client().ask("GET", "/status").body)["tenants"]
        return next(one for one in tenants if one["name"] == tenant).get("move", {}).get("stage")

    def end(self):
        for server in (self.one, self.two):
            assert server.end() == 0, server.logged()[-1500:]


@contextlib.contextmanager
def pair(*words, **options):
    with tempfile.TemporaryDirectory(ignore_cleanup_errors=True) as folder:
        made = Pair(folder, *words, **options)
        try:
            yield made
            made.end()
        finally:
            for server in (made.one, made.two):
                if server.process.poll() is None:
                    server.process.kill()
                    server.process.wait()


def push(client, tenant, tag, layer=b"layer"):
    """Pushes an image with a blob of its own. Returns the first status that is not 201, or 201."""
    data = f"{tenant}:{tag}".encode()
    for blob in (b"{}", layer, data):
        status = client.ask("POST", f"/v2/{tenant}/app/blobs/uploads/?digest={sha256(blob)}", blob, CONTENT).status
        if status != 201:
            return status
    return client.ask("PUT", f"/v2/{tenant}/app/manifests/{tag}", manifest_of(b"{}", [layer, data]), {"Content-Type": MANIFEST}).status


def pulls(client, tenant, tag, layer=b"layer"):
    """Returns whether an image is there with its blobs, byte for byte."""
    data = f"{tenant}:{tag}".encode()
    answer = client.ask("GET", f"/v2/{tenant}/app/manifests/{tag}")
    if (answer.status, answer.body) != (200, manifest_of(b"{}", [layer, data])):
        return False
    return all(client.ask("GET", f"/v2/{tenant}/app/blobs/{sha256(blob)}").body == blob for blob in (b"{}", layer, data))


def tags(client, tenant="acme"):
    answer = client.ask("GET", f"/v2/{tenant}/app/tags/list?n=10000")
    return set(json.loads(answer.body)["tags"]) if answer.status == 200 else set()


class Direct(threading.Thread):
    """Pushes to one registry directly, and notes when a push that was acknowledged began and ended."""

    def __init__(self, address, tenant, name):
        super().__init__(daemon=True)
        self.client, self.tenant, self.name_of, self.is_stopped = Client(address), tenant, name, threading.Event()
        self.acknowledged, self.unexpected = {}, []
        self.start()

    def run(self):
        number = 0
        while not self.is_stopped.wait(0.1):
            begun, tag = time.time(), f"{self.name_of}{number}"
            try:
                status = push(self.client, self.tenant, tag)
            except (OSError, http.client.HTTPException):
                self.client.connection.close()
                continue
            if status == 201:
                self.acknowledged[tag] = (begun, time.time())
                number += 1
            # A blob that was acknowledged at the other side of a move may be missing.
            elif status not in (429, 404):
                self.unexpected.append(status)

    def stop(self):
        self.is_stopped.set()
        self.join(60)
        assert not self.unexpected, self.unexpected
        return self.acknowledged


def killed_move(pair, folder, tenant, step, when):
    """Starts a move that is killed at a step. Returns the balancer."""
    balancer, earlier, lock = FakeBalancer(folder, tenant), [], threading.Lock()
    def kill(request, now, reply):
        with lock:
            word = label(request, earlier)
            earlier.append(word)
            # It closes when no request of a client is open.
            is_made = (word, now) != ("close", "after") or b'"stage":"closed"' in reply
            is_it = (word, now) == (step, when) and is_made
        if is_it:
            process.kill()
        return is_it
    gates = [Gate(folder, "one", pair.control("one"), kill), Gate(folder, "two", pair.control("two"), kill), Gate(folder, "ha", balancer.path, kill)]
    words = balancer.words()
    words[words.index("--haproxy") + 1] = gates[2].path
    process = subprocess.Popen(pair.command(tenant, *words, one=gates[0].path, two=gates[1].path), stdout=subprocess.DEVNULL, stderr=subprocess.PIPE)
    error = process.communicate(timeout=120)[1]
    for gate in gates:
        gate.close()
    assert process.returncode == -signal.SIGKILL, (step, when, process.returncode, error)
    return balancer


def check_killed_move(pair, tenant, step, when):
    """Kills a move at a step while clients write to both registries, starts it again, and checks that at any time at most one of them took
    writes, and that nothing is lost."""
    for tag in ("v1", "v2"):
        assert push(pair.one.client(), tenant, tag) == 201
    pushed = manifest_of(b"{}", [b"layer", f"{tenant}:v1".encode()])
    index = '{"schemaVersion":2,"mediaType":"%s","manifests":[{"mediaType":"%s","digest":"%s","size":%d}]}'
    index = (index % (INDEX, MANIFEST, sha256(pushed), len(pushed))).encode()
    assert pair.one.client().ask("PUT", f"/v2/{tenant}/app/manifests/all", index, {"Content-Type": INDEX}).status == 201
    source = Direct(pair.one.address, tenant, "one")
    assert until(lambda: len(source.acknowledged) > 2)
    with tempfile.TemporaryDirectory() as folder:
        balancer = killed_move(pair, folder, tenant, step, when)
        target = Direct(pair.two.address, tenant, "two") if step not in ("receive", "copy") or when == "after" else None
        time.sleep(0.5)
        stages = pair.stage("one", tenant), pair.stage("two", tenant)
        pair.move(tenant, *balancer.words())
        target = target or Direct(pair.two.address, tenant, "two")
        assert (balancer.route, balancer.file()) == ("two", f"other one\n{tenant} two\n"), (balancer.route, balancer.file())
        again = pair.move(tenant, *balancer.words())
        assert again.startswith(f"{tenant} is at "), again
    assert until(lambda: len(target.acknowledged) > 2), (tenant, step, when, stages)
    at_one, at_two = source.stop(), target.stop()
    first = min(ended for _, ended in at_two.values())
    late = [tag for tag, (begun, _) in at_one.items() if begun > first]
    assert not late, (tenant, step, when, late)
    client = pair.two.client()
    missing = [tag for tag in ["v1", "v2", *at_one, *at_two] if not pulls(client, tenant, tag)]
    assert not missing, (tenant, step, when, missing)
    assert client.ask("GET", f"/v2/{tenant}/app/manifests/all").body == index
    assert tags(client, tenant) == {"v1", "v2", "all", *at_one, *at_two}
    assert pair.stage("one", tenant) == "left" and pair.stage("two", tenant) is None
    return stages


def kills_at_each_step():
    points = [(step, when) for step in STEPS for when in ("before", "after")]
    names = [f"{step}-{when}" for step, when in points]
    with pair(tenants=tuple(f"{name}=100000000,65536" for name in names)) as both:
        with concurrent.futures.ThreadPoolExecutor(len(points)) as pool:
            stages = list(pool.map(lambda point: check_killed_move(both, f"{point[0]}-{point[1]}", *point), points))
    found = dict(zip(points, stages))
    # A kill leaves each stage.
    for point, expected in ((("receive", "before"), (None, None)), (("receive", "after"), (None, "arriving")), (("contents", "after"), ("copying", "arriving")),
                            (("close", "after"), ("closed", "arriving")), (("leave", "after"), ("left", "arriving")), (("open", "after"), ("left", None))):
        assert found[point] == expected, (point, found[point])


def restarts_while_nobody_may_write():
    with pair() as both, tempfile.TemporaryDirectory() as folder:
        assert push(both.one.client(), "acme", "v1") == 201
        killed_move(both, folder, "acme", "close", "after")
        for name in ("one", "two", "one"):
            both.restart(name)
        assert (both.stage("one"), both.stage("two")) == ("closed", "arriving")
        for server in (both.one, both.two):
            refused = server.client().ask("POST", "/v2/acme/app/blobs/uploads/")
            assert (refused.status, refused["Retry-After"], refused.code()) == (429, "2", "TOOMANYREQUESTS"), refused.status
            assert b"tenant acme is being moved: retry" in refused.body, refused.body
            assert server.client().ask("DELETE", "/v2/acme/app/manifests/v1").status == 429
        assert pulls(both.one.client(), "acme", "v1")
        both.move()
        assert pulls(both.two.client(), "acme", "v1") and push(both.two.client(), "acme", "v2") == 201
        both.restart("one")
        assert push(both.one.client(), "acme", "v2") == 429 and both.stage("one") == "left"
        # And back: what the tenant has there since is replaced by what it has now.
        assert both.two.client().ask("DELETE", "/v2/acme/app/manifests/v1").status == 202
        both.move(back=True)
        assert tags(both.one.client()) == {"v2"} and push(both.one.client(), "acme", "v3") == 201
        assert push(both.two.client(), "acme", "v4") == 429


def a_command_that_was_replaced_writes_nothing():
    with pair() as both:
        def step(name, **fields):
            return both.asked(name, "POST", "/moves/acme", json.dumps(fields).encode())
        (_, first), (_, second) = (step("two", step="receive", other="http://x", replace=False) for _ in range(2))
        def status(secret):
            sender = both.two.client(basic(f"robot+move+acme:{secret}"))
            return sender.ask("POST", f"/v2/acme/app/blobs/uploads/?digest={sha256(b'{}')}", b"{}", CONTENT).status
        assert first["stage"] == second["stage"] == "arriving" and first["secret"] != second["secret"]
        assert (status(first["secret"]), status(second["secret"]), status("")) == (401, 201, 401)
        assert step("two", step="open", secret=first["secret"])[0] == 409
        for wrong in ({"step": "jump"}, {"step": "open"}, {"step": "copy", "other": "x", "more": 1}):
            assert step("two", **wrong)[0] == 400, wrong
        assert step("two", step="copy", other="http://x")[0] == 409, "it is arriving"
        assert step("two", step="open", secret=second["secret"])[1]["stage"] is None
        assert status(second["secret"]) == 401
        assert not any(secret in both.two.logged() for secret in (first["secret"], second["secret"]))


def a_target_that_cannot_have_it():
    with pair(tenants=("acme=1000000,65536", "more=1000,65536"), two=("acme=3000,65536",), two_words=("--tags", "3")) as both:
        client = both.one.client()
        assert push(client, "acme", "v1", b"x" * 4000) == 201
        assert "--to may have at most 3000 bytes of the tenant, and --from has 40" in both.fails()
        assert "there is no such tenant: more" in both.fails("more") and "there is no such tenant: none" in both.fails("none")
        for path in (f"manifests/{client.ask('HEAD', '/v2/acme/app/manifests/v1')['Docker-Content-Digest']}", f"blobs/{sha256(b'x' * 4000)}"):
            assert client.ask("DELETE", f"/v2/acme/app/{path}").status == 202, path
        for number in range(4):
            assert push(client, "acme", f"v{number}") == 201
        assert "--to may have at most 3 tags of the tenant, and --from has 4" in both.fails()
        assert push(client, "acme", "v4") == 201 and both.stage("one") is None
        # More is pushed while it copies, which the target cannot have: the tenant stays where it is.
        for number in (3, 4):
            assert client.ask("DELETE", f"/v2/acme/app/manifests/v{number}").status == 202
        process = subprocess.Popen(both.command("acme"), stdout=subprocess.DEVNULL, stderr=subprocess.PIPE, text=True)
        assert until(lambda: len(tags(both.two.client())) == 3), "nothing is copied"
        assert push(client, "acme", "v5") == 201
        error = process.communicate(timeout=120)[1]
        assert process.returncode == 1 and "may have at most 3 tags: delete one" in error and "as before" in error, error
        assert push(client, "acme", "v6") == 201 and both.stage("one") is None
        assert push(both.two.client(), "acme", "v7") == 429
        # The target ends meanwhile.
        for number in (5, 6):
            assert client.ask("DELETE", f"/v2/acme/app/manifests/v{number}").status == 202
        process = subprocess.Popen(both.command("acme"), stdout=subprocess.DEVNULL, stderr=subprocess.PIPE, text=True)
        assert until(lambda: both.stage("one") == "copying")
        both.two.process.kill()
        error = process.communicate(timeout=120)[1]
        assert process.returncode == 1 and "as before" in error and both.stage("one") is None, error
        assert "cannot reach the registry" in both.fails() and push(client, "acme", "v8") == 201
        assert client.ask("DELETE", "/v2/acme/app/manifests/v8").status == 202
        both.restart("two")
        both.move()
        assert tags(both.two.client()) == {"v0", "v1", "v2"}


def a_limit_that_is_not_checked_fails_the_copy(*words):
    with pair(two_words=words) as both:
        client = both.one.client()
        assert push(client, "acme", "v1", b"x" * 4000) == push(client, "acme", "v2") == 201
        assert client.ask("POST", f"/v2/acme/second/blobs/uploads/?mount={sha256(b'{}')}&from=acme/app").status == 201
        assert client.ask("PUT", "/v2/acme/second/manifests/v1", manifest_of(b"{}", []), {"Content-Type": MANIFEST}).status == 201
        error = both.fails()
        assert "as before" in error and both.stage("one") is None and push(client, "acme", "v3") == 201, error
        assert push(both.two.client(), "acme", "v3") == 429
        return error


def limits_that_are_not_checked():
    for words, expected in ((("--max-blob", "3000"), "3000"), (("--repositories", "1"), "repositor"), (("--repository-manifests", "1"), "manifests")):
        error = a_limit_that_is_not_checked_fails_the_copy(*words)
        assert expected in error, (words, error)


def a_target_whose_disk_is_full():
    with pair(two_words=("--min-free", str(10**15))) as both:
        assert push(both.one.client(), "acme", "v1") == 201
        error = both.fails()
        assert "the disk of the registry is almost full" in error and "as before" in error, error
        assert push(both.one.client(), "acme", "v2") == 201 and both.stage("one") is None
        both.more["two"] = ()
        both.restart("two")
        both.move()
        assert pulls(both.two.client(), "acme", "v2")


def other_content_is_not_overwritten():
    with pair() as both:
        assert push(both.one.client(), "acme", "v1") == 201 and push(both.two.client(), "acme", "own") == 201
        assert "acme already has content of its own here" in both.fails()
        assert both.stage("two") is None and push(both.two.client(), "acme", "own2") == 201
        both.move("acme", "--replace")
        assert tags(both.two.client()) == {"v1"} and both.stage("two") is None


def a_move_is_given_up():
    with pair() as both, tempfile.TemporaryDirectory() as first, tempfile.TemporaryDirectory() as second:
        assert push(both.one.client(), "acme", "v1") == 201
        balancer = killed_move(both, first, "acme", "close", "after")
        assert balancer.route == "one/hold" and push(both.one.client(), "acme", "v2") == 429
        assert "replies and has not given acme away" in both.fails("acme", "--keep", "to")
        both.move("acme", "--keep", "from", *balancer.words())
        assert balancer.route == "one" and push(both.one.client(), "acme", "v2") == 201
        assert push(both.two.client(), "acme", "v2") == 429, "the target opened"
        # Again, and the source is lost.
        balancer = killed_move(both, second, "acme", "leave", "before")
        both.one.process.kill()
        both.one.process.wait()
        both.move("acme", "--keep", "to", *balancer.words())
        assert balancer.route == "two" and push(both.two.client(), "acme", "v3") == 201
        assert pulls(both.two.client(), "acme", "v2")
        both.one = both.begin("one")
        assert push(both.one.client(), "acme", "v4") == 429, "two registries take writes"


def a_backup_from_before_a_move_does_not_have_it():
    """As the document warns: then both registries take writes."""
    with pair() as both:
        assert push(both.one.client(), "acme", "v1") == 201 and both.one.end() == 0
        data = f"{both.folder}/one"
        shutil.copytree(data, f"{data}.backup")
        both.one = both.begin("one")
        both.move()
        assert push(both.one.client(), "acme", "v2") == 429 and push(both.two.client(), "acme", "v2") == 201
        assert both.one.end() == 0
        shutil.rmtree(data)
        shutil.copytree(f"{data}.backup", data)
        both.one = both.begin("one")
        assert both.stage("one") is None and push(both.one.client(), "acme", "v3") == 201
        assert pulls(both.two.client(), "acme", "v2")


def routes_are_checked_first():
    with pair() as both, tempfile.TemporaryDirectory() as folder:
        balancer = FakeBalancer(folder, "other")
        assert push(both.one.client(), "acme", "v1") == 201
        assert "HAProxy has no route of acme" in both.fails("acme", *balancer.words())
        words = balancer.words()
        words[words.index("--haproxy") + 1] = f"{folder}/none"
        assert "cannot command HAProxy" in both.fails("acme", *words)
        balancer.tenant, balancer.route = "acme", "two"
        assert "HAProxy sends acme to two already" in both.fails("acme", "--replace", *balancer.words())
        assert (both.stage("one"), both.stage("two")) == (None, None)


def open_uploads_are_waited_for():
    with pair() as both:
        client = both.one.client()
        assert push(client, "acme", "v1") == 201
        at = client.ask("POST", "/v2/acme/app/blobs/uploads/")["Location"]
        assert client.ask("PATCH", at, b"abc", CONTENT).status == 202
        process = subprocess.Popen(both.command("acme"), stdout=subprocess.PIPE, stderr=subprocess.PIPE, text=True)
        line = ""
        while "waiting for 0 open requests and 1 open uploads" not in line:
            line = process.stdout.readline()
            assert line, process.communicate()
        # Meanwhile clients write.
        assert push(client, "acme", "v2") == 201, "it refuses writes while it waits"
        assert client.ask("PUT", f"{at}?digest={sha256(b'abcdef')}", b"def", CONTENT).status == 201
        out, error = process.communicate(timeout=120)
        assert process.returncode == 0, error
        # The blob of a push that goes on at the target is there.
        manifest = manifest_of(b"{}", [b"abcdef"])
        assert both.two.client().ask("PUT", "/v2/acme/app/manifests/v3", manifest, {"Content-Type": MANIFEST}).status == 201
        assert tags(both.two.client()) == {"v1", "v2", "v3"}


def open_uploads_are_cut():
    with pair() as both:
        client = both.one.client()
        assert push(client, "acme", "v1") == 201
        at = client.ask("POST", "/v2/acme/app/blobs/uploads/")["Location"]
        stalled = client.ask("POST", "/v2/acme/app/blobs/uploads/")["Location"]
        line = both.one.socket()
        line.sendall(f"PATCH {stalled} HTTP/1.1\r\nHost: x\r\nContent-Length: 9000000\r\n\r\n".encode() + b"x" * 5_000_000)
        printed = both.move("acme", "--uploads-s", "0")
        assert "not writable" in printed, printed
        assert client.ask("PATCH", at, b"abc", CONTENT).status == 429
        line.sendall(b"x" * 4_000_000)
        reply = line.recv(1 << 16)
        assert reply.startswith(b"HTTP/1.1 404"), reply[:100]
        line.close()
        assert until(lambda: both.one.metric("registryd_uploads") == 0)
        assert tags(both.two.client()) == {"v1"} and push(both.two.client(), "acme", "v2") == 201


def pushes_that_are_in_progress_go_on():
    """A client has pushed blobs, or a reply named them, and it pushes the manifest at the target."""
    with pair() as both:
        client = both.one.client()
        for blob in (b"{}", b"early"):
            assert client.ask("POST", f"/v2/acme/app/blobs/uploads/?digest={sha256(blob)}", blob, CONTENT).status == 201
        process = subprocess.Popen(both.command("acme"), stdout=subprocess.DEVNULL, stderr=subprocess.PIPE, text=True)
        assert until(lambda: both.stage("one") == "copying")
        for blob in (b"{}", b"early"):
            assert client.ask("HEAD", f"/v2/acme/app/blobs/{sha256(blob)}").status == 200
        assert client.ask("POST", f"/v2/acme/app/blobs/uploads/?digest={sha256(b'late')}", b"late", CONTENT).status == 201
        assert client.ask("POST", f"/v2/acme/new/blobs/uploads/?mount={sha256(b'{}')}&from=acme/app").status == 201
        assert process.wait(timeout=120) == 0, process.stderr.read()
        client = both.two.client()
        put = lambda repo, layers: client.ask("PUT", f"/v2/acme/{repo}/manifests/v1", manifest_of(b"{}", layers), {"Content-Type": MANIFEST}).status
        assert put("app", [b"early", b"late"]) == 201 and put("new", []) == 201


def users_of_files_are_those_of_each_registry():
    with users(f"acme:{CHEAP}") as file, pair("--htpasswd", file) as both:
        client = both.one.client(basic("acme:secret"))
        found = client.ask("POST", "/v2/acme/app/blobs/uploads/").status
        assert found == 202, found
        assert push(client, "acme", "v1") == 201
        printed = both.move("acme", "--uploads-s", "0", "--delete")
        assert "warning" not in printed and "deleted 1 manifests" in printed, printed
        assert pulls(both.two.client(basic("acme:secret")), "acme", "v1")
        assert both.one.client(basic("acme:secret")).ask("GET", "/v2/acme/app/manifests/v1").status == 404


def rules_of_files_hold_where_they_are():
    """The operator has copied the files to the target. Rules of other tenants do not count, nor does the order of lines."""
    with users("acme/app v*", "* release-?", "other x") as first, users("* release-?", "acme/app v*", "acmes y") as second, users("acme/x * last=9") as rules:
        with pair("--retention", rules, two_words=("--immutable-tags", second)) as both:
            both.more["one"] = ("--immutable-tags", first)
            both.restart("one")
            assert push(both.one.client(), "acme", "v1") == push(both.one.client(), "acme", "latest") == 201
            assert "warning" not in both.move()
            put = lambda tag: both.two.client().ask("PUT", f"/v2/acme/app/manifests/{tag}", manifest_of(b"{}", [b"layer"]), {"Content-Type": MANIFEST}).status
            assert (put("v1"), put("latest")) == (409, 201) and pulls(both.two.client(), "acme", "v1")


def settings_that_differ_are_named():
    with users("acme/app v*") as tags, users("acme * last=9") as first, users("acme * last=8") as second:
        with pair(two_words=("--immutable-tags", tags, "--retention", second, "--max-blob", "3000")) as both:
            both.more["one"] = ("--retention", first)
            both.restart("one")
            assert push(both.one.client(), "acme", "v1") == 201
            sides = f"http://{both.one.address} and http://{both.two.address}"
            expected = [f"warning: http://{both.two.address} takes blobs of at most 3000 bytes, and http://{both.one.address} of {4 << 30}",
                        f"warning: the lines of --immutable-tags for acme differ at {sides}", f"warning: the lines of --retention for acme differ at {sides}"]
            printed = both.move()
            assert re.findall("warning: .*", printed) == expected, printed


def robots_arrive_with_their_tenant():
    both_tenants = ("acme=1000000000,65536", "other=1000000000,65536")
    with users(f"acme:{CHEAP}") as file, pair("--htpasswd", file, tenants=both_tenants) as both:
        one, two = both.control("one"), both.control("two")
        allowed = {"ci": ("read,write:acme/app",), "two-tenants": ("read:acme", "read:other"), "everywhere": ("read:*",), "others": ("write:other",), "gone": ("read:acme",)}
        secrets = {name: robots.add(one, name, *allow) for name, allow in allowed.items()}
        own = robots.add(two, "own", "read:acme/app")
        robots.robot(one, "revoke", "gone")
        before = robots.listed(one)
        assert push(both.one.client(basic(f"robot+ci:{secrets['ci']}")), "acme", "v1") == 201
        assert not any(robots.may(both.two, f"robot+{name}", secret) for name, secret in secrets.items())
        printed = both.move()
        assert "warning" not in both.move()
        assert re.findall("warning: .*", printed) == [f"warning: robot+own has rights in acme at http://{both.two.address}, and does not exist at http://{both.one.address}"], printed
        both.restart("two")
        client = both.two.client(basic(f"robot+ci:{secrets['ci']}"))
        assert pulls(client, "acme", "v1") and push(client, "acme", "v2") == 201
        assert client.ask("DELETE", "/v2/acme/app/manifests/v2").status == 403 and not robots.may(both.two, "robot+ci", secrets["others"])
        may = [name for name, secret in secrets.items() if robots.may(both.two, f"robot+{name}", secret)]
        assert may == ["ci", "two-tenants", "everywhere"] and robots.may(both.two, "robot+own", own), may
        for name in ("two-tenants", "everywhere"):
            found = [both.two.client(basic(f"robot+{name}:{secrets[name]}")).ask("GET", f"/v2/{tenant}/app/manifests/v1").status for tenant in ("acme", "other")]
            assert found == [200, 403], (name, found)
        found = robots.listed(two)
        assert {name: robot["rights"] for name, robot in found.items()} == {
            "robot+ci": ["read,write acme/app"], "robot+everywhere": ["read acme"], "robot+own": ["read acme/app"], "robot+two-tenants": ["read acme"]}, found
        for name in ("robot+ci", "robot+everywhere", "robot+two-tenants"):
            assert {**found[name], "rights": 0} == {**before[name], "rights": 0}, name
        # The rights in a second tenant are added, and those in the first one are not doubled.
        both.move("other")
        assert robots.listed(two)["robot+two-tenants"]["rights"] == ["read acme", "read other"] and robots.listed(one) == before
        # Back: the rights in the tenant are those of the source.
        both.move("acme", back=True)
        assert robots.listed(one)["robot+ci"]["rights"] == ["read,write acme/app"] and robots.may(both.one, "robot+own", own)
        assert not any(secret in server.logged() for secret in secrets.values() for server in (both.one, both.two))


def check_robots_of_a_killed_move(both, tenant, step, when):
    """Kills a move at a step, revokes a robot that waits, and starts the move again."""
    one, two = both.control("one"), both.control("two")
    secrets = {name: robots.add(one, name, f"read,write:{tenant}") for name in (tenant, f"{tenant}-gone")}
    may = lambda server, name: robots.may(server, f"robot+{name}", secrets[name])
    assert push(both.one.client(basic(f"robot+{tenant}:{secrets[tenant]}")), tenant, "v1") == 201

    def add_late():
        # It is sent after the copy, in a step of its own.
        if until(lambda: both.stages(tenant)[0] == "copying"):
            secrets[f"{tenant}-late"] = robots.add(one, f"{tenant}-late", f"read:{tenant}")

    adding = threading.Thread(target=add_late)
    adding.start()
    with tempfile.TemporaryDirectory() as folder:
        balancer = killed_move(both, folder, tenant, step, when)
        if step == "receive":
            both.move(tenant, "--keep", "from", *balancer.words())
            assert robots.listed(one)[f"robot+{tenant}"]["state"] == "active"
            fault = robots.fault(two, "add", tenant, "--allow", "read:*", "--days", "1")
            assert f"the robot robot+{tenant} arrives with the tenant {tenant}" in fault, fault
        is_open = (step, when) == ("open", "after")
        assert may(both.two, tenant) == is_open and may(both.one, tenant), (step, when)
        robots.robot(one, "revoke", f"{tenant}-gone")
        both.move(tenant, *balancer.words())
    adding.join(60)
    expected = {f"robot+{tenant}", f"robot+{tenant}-late", *({f"robot+{tenant}-gone"} if is_open else ())}
    found = {name: robot["rights"] for name, robot in robots.listed(two).items() if name.startswith(f"robot+{tenant}")}
    assert set(found) == expected and found[f"robot+{tenant}"] == [f"read,write {tenant}"], (step, when, found)
    assert may(both.two, tenant) and may(both.two, f"{tenant}-late") and may(both.two, f"{tenant}-gone") == is_open
    assert push(both.two.client(basic(f"robot+{tenant}:{secrets[tenant]}")), tenant, "v2") == 201


def robots_of_a_killed_move_arrive_once():
    points = [("receive", "after"), ("contents", "after"), ("robots", "before"), ("robots", "after"), ("open", "before"), ("open", "after")]
    names = [f"{step}-{when}" for step, when in points]
    with users(f"acme:{CHEAP}") as file, pair("--htpasswd", file, tenants=tuple(f"{name}=100000000,65536" for name in names)) as both:
        with concurrent.futures.ThreadPoolExecutor(len(points)) as pool:
            list(pool.map(lambda point: check_robots_of_a_killed_move(both, f"{point[0]}-{point[1]}", *point), points))


def robots_wait_over_restarts():
    """The source is lost after the copy."""
    with users(f"acme:{CHEAP}") as file, pair("--htpasswd", file) as both, tempfile.TemporaryDirectory() as folder:
        secret = robots.add(both.control("one"), "ci", "read,write:acme")
        client = both.one.client(basic(f"robot+ci:{secret}"))
        assert push(client, "acme", "v1") == 201
        balancer = killed_move(both, folder, "acme", "leave", "before")
        both.one.process.kill()
        both.one.process.wait()
        both.restart("two")
        assert not robots.may(both.two, "robot+ci", secret)
        both.move("acme", "--keep", "to", *balancer.words())
        both.restart("two")
        assert robots.may(both.two, "robot+ci", secret) and push(both.two.client(basic(f"robot+ci:{secret}")), "acme", "v2") == 201
        both.one = both.begin("one")


def a_robot_that_differs_is_refused():
    with users(f"acme:{CHEAP}") as file, pair("--htpasswd", file) as both:
        first, second = (robots.add(both.control(name), "ci", f"read,write:{allow}") for name, allow in (("one", "acme"), ("two", "acme/app")))
        before = robots.listed(both.control("two"))
        assert push(both.one.client(basic(f"robot+ci:{first}")), "acme", "v1") == 201
        error = both.fails()
        assert "robot+ci arrives with the tenant, and there is another robot robot+ci: revoke one of the two" in error, error
        assert both.stages() == (None, None) and robots.listed(both.control("two")) == before
        for server, secret, tag in ((both.one, first, "v2"), (both.two, second, "own")):
            assert push(server.client(basic(f"robot+ci:{secret}")), "acme", tag) == 201, tag
        assert not robots.may(both.two, "robot+ci", first)
        robots.robot(both.control("two"), "revoke", "ci")
        both.move("acme", "--replace")
        assert robots.may(both.two, "robot+ci", first) and not robots.may(both.two, "robot+ci", second)


def a_target_without_users_gets_no_robots():
    with users(f"acme:{CHEAP}") as file, pair(two_words=("--htpasswd", file)) as both:
        secret = robots.add(both.control("two"), "ci", "read,write:acme")
        client = both.two.client(basic(f"robot+ci:{secret}"))
        assert push(client, "acme", "v1") == 201
        error = both.fails("acme", back=True)
        assert "acme has robots, and requests need no credentials here: give --htpasswd" in error, error
        assert both.stages() == (None, None) and push(client, "acme", "v2") == 201
        robots.robot(both.control("two"), "revoke", "ci")
        both.move("acme", back=True)
        assert pulls(both.one.client(), "acme", "v2")


if __name__ == "__main__":
    play("moves", [kills_at_each_step, restarts_while_nobody_may_write, a_command_that_was_replaced_writes_nothing, a_target_that_cannot_have_it,
                   limits_that_are_not_checked, a_target_whose_disk_is_full, other_content_is_not_overwritten, a_move_is_given_up,
                   a_backup_from_before_a_move_does_not_have_it, routes_are_checked_first,
                   open_uploads_are_waited_for, open_uploads_are_cut, pushes_that_are_in_progress_go_on, users_of_files_are_those_of_each_registry,
                   rules_of_files_hold_where_they_are, settings_that_differ_are_named, robots_arrive_with_their_tenant, robots_of_a_killed_move_arrive_once, robots_wait_over_restarts,
                   a_robot_that_differs_is_refused, a_target_without_users_gets_no_robots])
