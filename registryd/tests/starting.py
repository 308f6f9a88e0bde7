#!/usr/bin/env python3
"""Tests a start that lasts: what a registry replies before it serves, and what it tells the service manager. The start lasts because a stub of
the store greets late, or because the store is started late."""
import contextlib, http.client, json, os, re, signal, socket, ssl, subprocess, tempfile, time

import server as servers
from playing import STUB, play
from restarts import by_signal, folder, pulled, pushed
from server import MANIFEST, Client, Server
from statuses import check, ended

# The seconds that a start lasts. Other tests may run at the same time.
LASTS = 6
# The store greets on its connections one after the other, so the stub is late on each of them.
LINES = 2


class Starting(Server):
    """A registryd that has begun to start."""

    def listens(self, seconds=60):
        self.address = self.wait_for(r"starting address=(\S+)", seconds)


@contextlib.contextmanager
def starting(*words, program=STUB, seconds=LASTS, rules=(), **variables):
    """Begins a start that lasts some seconds. The registry is ended at last, with its store."""
    blobd = servers.BLOBD
    servers.BLOBD = program
    rules = json.dumps({"greeting": {"slow": seconds / LINES}, **dict(rules)})
    try:
        server = Starting("--lines", str(LINES), *words, env={**os.environ, "STUB_RULES": rules, **variables})
    finally:
        servers.BLOBD = blobd
    try:
        yield server
    finally:
        # With a signal that it handles, its store ends too.
        server.end()


def is_of_a_start(answer, status):
    assert (answer.status, answer["Connection"]) == (status, "close"), (answer.status, answer.headers.items())
    assert (answer["Retry-After"] is not None) == (status == 503), answer.headers.items()
    return answer


def replies_of_a_start(ask):
    """Checks them. `ask` makes a request on a connection of its own."""
    assert is_of_a_start(ask("GET", "/livez"), 200).body == b""
    # The store is started a moment after the first reply.
    end = time.monotonic() + 10
    has_store = False
    while not has_store:
        answer = is_of_a_start(ask("GET", "/healthz"), 503)
        found = re.fullmatch(rb"starting for \d+ s: (the store has read \d+ bytes, )?the log has \d+ bytes\n", answer.body)
        assert found and time.monotonic() < end, answer.body
        has_store = found[1] is not None
    for method, path in (("GET", "/v2/"), ("GET", "/metrics"), ("GET", "/"), ("DELETE", "/v2/acme/one/manifests/v1"), ("HEAD", "/none")):
        answer = is_of_a_start(ask(method, path), 503)
        assert method == "HEAD" or b"the registry is starting" in answer.body, answer.body
    answer = is_of_a_start(ask("PUT", "/v2/acme/one/manifests/v1", b"x" * 1000), 503)
    assert answer.code() == "TOOMANYREQUESTS"


def asking(address):
    return lambda *words: Client(address).ask_once(*words)


def a_start_replies():
    """Then it serves at the same address. A connection without a request of the start is served too."""
    with starting() as server:
        early = server.client()
        early.connection.connect()
        replies_of_a_start(asking(server.address))
        assert "listening address" not in server.logged()
        assert server.wait_for(r"listening address=(\S+)") == server.address
        for path, status in (("/livez", 200), ("/healthz", 200), ("/v2/", 200), ("/none", 404)):
            assert early.ask_once("GET", path).status == server.client().ask("GET", path).status == status, path
        assert server.end() == 0


def the_metrics_address_replies_too():
    port = servers.free_port()
    with starting("--metrics-listen", f"127.0.0.1:{port}") as server:
        ask = asking(f"127.0.0.1:{port}")
        assert is_of_a_start(ask("GET", "/livez"), 200) and is_of_a_start(ask("GET", "/metrics"), 503)
        assert server.wait_for(r"serving metrics address=(\S+)") == f"127.0.0.1:{port}"
        assert [ask("GET", path).status for path in ("/livez", "/healthz", "/metrics", "/v2/")] == [200, 200, 200, 404]


def a_start_replies_by_tls():
    with tempfile.TemporaryDirectory() as path:
        certificate, key = f"{path}/cert.pem", f"{path}/key.pem"
        made = ["openssl", "req", "-x509", "-newkey", "ec", "-pkeyopt", "ec_paramgen_curve:P-256", "-nodes", "-keyout", key, "-out", certificate,
                "-subj", "/CN=localhost", "-addext", "subjectAltName=IP:127.0.0.1"]
        subprocess.run(made, check=True, stderr=subprocess.DEVNULL)
        trusted = ssl.create_default_context(cafile=certificate)
        with starting("--tls-cert", certificate, "--tls-key", key) as server:
            def ask(*words):
                client = Client(server.address)
                client.connection = http.client.HTTPSConnection(server.address, timeout=60, context=trusted)
                return client.ask_once(*words)
            replies_of_a_start(ask)
            server.wait_for("listening address")
            assert ask("GET", "/healthz").status == 200


def a_start_with_a_log():
    """Its length is in the reply, and what it has is served afterwards."""
    with folder() as path, tempfile.TemporaryDirectory() as other:
        with servers.serving("--data", path) as server:
            image = pushed(server.client())
            by_signal(server)
        length = sum(os.path.getsize(f"{path}/{name}") for name in os.listdir(path) if name.startswith(("log.", "base.")))
        with open(f"{other}/blobd", "w") as script:
            script.write(f'#!/bin/sh\nsleep {LASTS}\nexec {servers.BLOBD} "$@"\n')
        os.chmod(script.name, 0o700)
        with starting("--data", path, program=script.name) as server:
            assert f"the log has {length} bytes".encode() in asking(server.address)("GET", "/healthz").body
            assert asking(server.address)("GET", "/livez").status == 200
            server.wait_for("listening address")
            assert pulled(server.client(), "acme/one", "v1") == (image, MANIFEST)
            by_signal(server)


def a_start_that_is_stopped_or_fails():
    """A signal ends it with status 0, and a store that ends with the status of that."""
    with starting(seconds=600) as server:
        assert asking(server.address)("GET", "/livez").status == 200
        assert server.end() == 0 and "stopped while starting" in server.logged()
    check(ended(programs=(servers.REGISTRYD, "/bin/false")), 1, "starting address=127.0.0.1:", "blobd ended")
    with socket.socket() as other:
        other.bind(("127.0.0.1", 0))
        other.listen()
        port = other.getsockname()[1]
        check(started_at(port), 1, f"cannot listen: 127.0.0.1:{port}")


def started_at(port):
    """Starts a registry at a port, and returns its status and its log."""
    done = subprocess.run([servers.REGISTRYD, "--listen", f"127.0.0.1:{port}", "--blobd", servers.BLOBD, "acme=1"],
                          stderr=subprocess.PIPE, text=True, timeout=60)
    return done.returncode, done.stderr


def a_log_longer_than_the_memory_is_named():
    """Before anything else happens. The file of the log is sparse. If its long contents have no files yet, the room for them is named."""
    with folder() as path:
        os.makedirs(path)
        with open(f"{path}/log.1", "wb") as log:
            os.truncate(log.fileno(), 1 << 43)
        for said in (f"the disk may lack room for files of the contents of the log log_bytes={1 << 43} free=",
                     f"the log is longer than the available memory: the start may run out of it log_bytes={1 << 43} available="):
            status, text = ended("--data", path)
            check((status, text), 8, said)
            assert text.index(said) < text.index("is lost"), text
            with open(f"{path}/longest", "w") as longest:
                longest.write("16384\n")


class Manager:
    """The socket of a service manager."""

    def __init__(self, address):
        self.socket = socket.socket(socket.AF_UNIX, socket.SOCK_DGRAM)
        self.socket.bind(address)
        self.socket.settimeout(60)

    def wait_for(self, notice):
        """Waits for a line, and returns the lines before it."""
        before = []
        while notice not in before:
            before += self.socket.recv(4096).decode().split("\n")
        return before

    def name(self):
        """Returns the name before the value of the next notice."""
        return self.socket.recv(4096).decode().partition("=")[0]


def the_service_manager_is_notified():
    """By a path and by an abstract name. The store gets no variables of it."""
    with tempfile.TemporaryDirectory() as path:
        for name, address in ((f"{path}/notify", f"{path}/notify"), (f"@registryd-{os.getpid()}", f"\0registryd-{os.getpid()}")):
            manager = Manager(address)
            with starting(seconds=2, NOTIFY_SOCKET=name, WATCHDOG_USEC="1000000") as server:
                before = manager.wait_for("READY=1")
                assert before[0] == "EXTEND_TIMEOUT_USEC=300000000", before
                assert before[1].startswith("STATUS=starting for 0 s"), before
                assert "WATCHDOG=1" not in before
                server.wait_for("listening address")
                with open(f"/proc/{server.child()}/environ") as file:
                    assert not re.search("NOTIFY_SOCKET|WATCHDOG", file.read())
                begun = time.time()
                manager.wait_for("WATCHDOG=1")
                manager.wait_for("WATCHDOG=1")
                assert time.time() - begun < 30
                server.process.send_signal(signal.SIGTERM)
                manager.wait_for("STOPPING=1")
                assert server.end() == 0


def a_start_that_hangs_gets_no_more_time():
    """One whose store reads gets more each time."""
    with tempfile.TemporaryDirectory() as path:
        manager = Manager(f"{path}/notify")
        with starting(seconds=600, NOTIFY_SOCKET=f"{path}/notify"):
            # The store reads what it is itself made of.
            names = [manager.name(), manager.name()]
            while names[-2:] != ["STATUS", "STATUS"]:
                names.append(manager.name())
                assert len(names) < 20, names
            assert [manager.name() for _ in range(2)] == ["STATUS", "STATUS"]
        manager = Manager(f"{path}/other")
        with open(f"{path}/blobd", "w") as script:
            script.write("#!/bin/sh\nwhile head -c 1000 /dev/zero > /dev/null; do sleep 1; done\n")
        os.chmod(script.name, 0o700)
        with starting(program=script.name, NOTIFY_SOCKET=f"{path}/other"):
            names = [manager.name() for _ in range(6)]
            assert names == ["EXTEND_TIMEOUT_USEC", "STATUS"] * 3, names


def a_store_that_hangs_lets_the_watchdog_expire():
    with tempfile.TemporaryDirectory() as path:
        manager = Manager(f"{path}/notify")
        # It does not reply to a request for the use of a tenant.
        rules = {"20": {"slow": 1000}}
        with starting(seconds=0, rules=rules, NOTIFY_SOCKET=f"{path}/notify", WATCHDOG_USEC="1000000"):
            manager.wait_for("READY=1")
            manager.socket.settimeout(8)
            try:
                raise AssertionError(manager.name())
            except socket.timeout:
                pass


def the_watchdog_of_another_process_is_none():
    with tempfile.TemporaryDirectory() as path:
        manager = Manager(f"{path}/notify")
        with starting(seconds=0, NOTIFY_SOCKET=f"{path}/notify", WATCHDOG_USEC="100000", WATCHDOG_PID="1") as server:
            manager.wait_for("READY=1")
            time.sleep(1)
            server.process.send_signal(signal.SIGTERM)
            assert "WATCHDOG=1" not in manager.wait_for("STOPPING=1")


def main():
    play("starting", [
        a_start_replies, the_metrics_address_replies_too, a_start_replies_by_tls, a_start_with_a_log, a_start_that_is_stopped_or_fails,
        a_log_longer_than_the_memory_is_named, the_service_manager_is_notified, a_start_that_hangs_gets_no_more_time,
        a_store_that_hangs_lets_the_watchdog_expire, the_watchdog_of_another_process_is_none])


if __name__ == "__main__":
    main()
