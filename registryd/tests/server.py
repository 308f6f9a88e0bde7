"""Starts a registryd on a free port, and sends requests to it. If WITH_FOLDER is set, it keeps its data in a new folder."""
import contextlib, hashlib, http.client, os, random, re, signal, socket, subprocess, tempfile, time

TOP = os.path.dirname(os.path.dirname(os.path.abspath(__file__)))
REGISTRYD = os.environ.get("REGISTRYD", f"{TOP}/target/release/registryd")
BLOBD = os.environ.get("BLOBD", f"{os.path.dirname(TOP)}/crates/blobd/out/blobd")
MANIFEST = "application/vnd.oci.image.manifest.v1+json"
INDEX = "application/vnd.oci.image.index.v1+json"


def sha256(data):
    return "sha256:" + hashlib.sha256(data).hexdigest()


def sha512(data):
    return "sha512:" + hashlib.sha512(data).hexdigest()


def manifest_of(config, layers):
    """The bytes of a manifest over contents."""
    def entry(kind, data):
        return '{"mediaType":"application/vnd.oci.image.%s","digest":"%s","size":%d}' % (kind, sha256(data), len(data))
    parts = ",".join(entry("layer.v1.tar", data) for data in layers)
    text = '{"schemaVersion":2,"mediaType":"%s","config":%s,"layers":[%s]}' % (MANIFEST, entry("config.v1+json", config), parts)
    return text.encode()


def index_of(seed, length):
    """The bytes of an index without manifests. The log of a store has all of them, and not those of a blob of more than 16,384 bytes."""
    head, end = '{"schemaVersion":2,"mediaType":"%s","manifests":[],"annotations":{"x":"' % INDEX, '"}}'
    count = length - len(head) - len(end)
    return (head + random.Random(seed).randbytes(count // 2 + 1).hex()[:count] + end).encode()


def push_index(client, repo, data):
    """Pushes an index by its digest, and returns its path."""
    at = f"/v2/{repo}/manifests/{sha256(data)}"
    status = client.ask("PUT", at, data, {"Content-Type": INDEX}).status
    assert status == 201, status
    return at


def free_port():
    """Returns a port on which nothing listens. The system gives it to no connection meanwhile, because it is below those that it chooses."""
    with open("/proc/sys/net/ipv4/ip_local_port_range") as file:
        lowest = int(file.read().split()[0])
    while True:
        port = random.SystemRandom().randrange(min(10_000, lowest // 2), lowest)
        with contextlib.suppress(OSError), socket.socket() as free:
            free.bind(("127.0.0.1", port))
            return port


class Answer:
    def __init__(self, response, body):
        self.status, self.headers, self.body = response.status, response.headers, body

    def __getitem__(self, name):
        return self.headers.get(name)

    def code(self):
        """Returns the error's code (OCI Distribution Specification 1.1, "Error Codes")."""
        import json
        return json.loads(self.body)["errors"][0]["code"]


class Client:
    """A connection that is reopened after the server closed it."""

    def __init__(self, address, headers=()):
        self.connection = http.client.HTTPConnection(address, timeout=60)
        self.headers = dict(headers)

    def ask_once(self, method, path, body=None, headers=()):
        """Sends a request, and returns the response."""
        headers = {**self.headers, **dict(headers)}
        self.connection.request(method, path, body, headers, encode_chunked="Transfer-Encoding" in headers)
        response = self.connection.getresponse()
        return Answer(response, response.read())

    def ask(self, method, path, body=None, headers=()):
        """The same, and once more if the server has closed the connection."""
        try:
            return self.ask_once(method, path, body, headers)
        except (http.client.RemoteDisconnected, BrokenPipeError, ConnectionResetError):
            self.connection.close()
            return self.ask_once(method, path, body, headers)


# The maximum number of a tenant's open uploads, if a test gives none: it is soon reached.
UPLOADS = 64


class Server:
    """A registryd and its blobd. Each tenant may take all slots, unless a test is about shares."""

    def __init__(self, *words, tenants=("acme=1000000000,65536", "other=1000000000,65536", "poor=1000000,65536"), **options):
        self.log = tempfile.TemporaryFile()
        if "WITH_FOLDER" in os.environ:
            self.folder = tempfile.TemporaryDirectory()
            words = ("--data", self.folder.name, *words)
        if "--uploads" not in words:
            words = ("--uploads", str(UPLOADS), *words)
        command = [REGISTRYD, "--listen", "127.0.0.1:0", "--blobd", BLOBD, *words, *tenants]
        # SIGXFSZ stays ignored, as in Python, so that a test can limit the length of a file that a program writes.
        self.process = subprocess.Popen(command, stderr=self.log, restore_signals=False, **options)
        try:
            self.listens()
        except BaseException:
            # It would go on, and hold the output of the test open.
            self.process.kill()
            raise

    def listens(self, seconds=60):
        """Waits until it listens on an address."""
        self.address = self.wait_for(r"listening address=(\S+)", seconds)

    def logged(self):
        """Returns the log. Its writers share the offset of the file, so that is not moved."""
        number = self.log.fileno()
        return os.pread(number, os.fstat(number).st_size, 0).decode()

    def wait_for(self, pattern, seconds=60):
        """Waits until the log matches a pattern, and returns the match."""
        end = time.time() + seconds
        while time.time() < end:
            found = re.search(pattern, self.logged())
            if found:
                return found.group(1) if found.groups() else found.group(0)
            if self.process.poll() is not None:
                break
            time.sleep(0.02)
        raise AssertionError(f"the log does not match {pattern}:\n{self.logged()[-2000:]}")

    def reload(self, pattern):
        """Lets it read its files again, and waits until a new line of the log matches a pattern."""
        before = len(self.logged())
        self.process.send_signal(signal.SIGHUP)
        end = time.time() + 60
        while not re.search(pattern, self.logged()[before:]):
            assert self.process.poll() is None and time.time() < end, f"no {pattern}:\n{self.logged()[before:][-2000:]}"
            time.sleep(0.02)

    def client(self, headers=()):
        return Client(self.address, headers)

    def socket(self):
        host, port = self.address.rsplit(":", 1)
        return socket.create_connection((host, int(port)), timeout=60)

    def child(self):
        """Returns the process id of the blobd."""
        found = subprocess.run(["pgrep", "-P", str(self.process.pid)], stdout=subprocess.PIPE, text=True)
        return int(found.stdout.split()[0])

    def metric(self, name):
        """Returns the value of a metric by its name with labels."""
        text = self.client().ask("GET", "/metrics").body.decode()
        for line in text.splitlines():
            if line.rsplit(" ", 1)[0] == name:
                return float(line.rsplit(" ", 1)[1])
        raise AssertionError(f"no metric {name}")

    def left(self):
        """Returns what is left in the store after everything was deleted and swept, or nothing."""
        slots = self.metric("registryd_slots")
        for _ in range(100):
            used, free = self.metric('registryd_tenant_used_bytes{tenant="acme"}'), self.metric("registryd_free_slots")
            if used == 0 and free == slots:
                return None
            time.sleep(0.05)
        return f"{used:.0f} bytes in use, {slots - free:.0f} slots"

    def memory(self):
        """Returns the sum of both programs' peaks of resident memory, in bytes."""
        total = 0
        for pid in (self.process.pid, self.child()):
            with open(f"/proc/{pid}/status") as file:
                total += sum(int(line.split()[1]) * 1024 for line in file if line.startswith("VmHWM"))
        return total

    def end(self, signal=signal.SIGTERM):
        """Ends the programs, and returns the exit status."""
        if self.process.poll() is None:
            self.process.send_signal(signal)
        return self.process.wait(timeout=60)


@contextlib.contextmanager
def serving(*words, **options):
    server = Server(*words, **options)
    try:
        yield server
    finally:
        if server.process.poll() is None:
            server.process.kill()
            server.process.wait()
