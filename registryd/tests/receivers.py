"""Programs that receive events, with faults, and the files that name them."""
import contextlib, http.server, json, ssl, tempfile, threading, time

from playing import until
from server import free_port

TYPE = "application/vnd.docker.distribution.events.v1+json"


class Handler(http.server.BaseHTTPRequestHandler):
    protocol_version = "HTTP/1.1"

    def do_POST(self):
        receiver = self.server.receiver
        content = self.rfile.read(int(self.headers["Content-Length"]))
        with receiver.lock:
            receiver.requests.append((self.path, self.headers, content))
            fault = receiver.faults.pop(0) if receiver.faults else receiver.fault
        if fault == "cut":
            self.close_connection = True
            self.connection.shutdown(2)
            return
        if fault == "half":
            self.close_connection = True
            self.wfile.write(b"HTTP/1.1 20")
            return
        if isinstance(fault, float):
            time.sleep(fault)
            fault = 200
        if fault == 200:
            with receiver.lock:
                receiver.events += json.loads(content)["events"]
        with contextlib.suppress(OSError):
            self.send_response(fault)
            self.send_header("Content-Length", "2")
            self.end_headers()
            self.wfile.write(b"ok")

    def log_message(self, *words):
        pass


class Server(http.server.ThreadingHTTPServer):
    daemon_threads = True
    block_on_close = False

    def handle_error(self, *words):
        pass


class Receiver:
    """A receiver of events. A fault is a status, a time in seconds before a reply, or how a connection ends without one. `faults` has those
    of the next requests, and `fault` that of all others."""

    def __init__(self, name="one", certificate=None):
        self.name, self.certificate, self.port = name, certificate, free_port()
        self.lock, self.requests, self.events, self.faults, self.fault = threading.Lock(), [], [], [], 200
        self.server = None

    def begin(self):
        self.server = Server(("127.0.0.1", self.port), Handler)
        self.server.receiver = self
        if self.certificate:
            context = ssl.SSLContext(ssl.PROTOCOL_TLS_SERVER)
            context.load_cert_chain(*self.certificate)
            self.server.socket = context.wrap_socket(self.server.socket, server_side=True, do_handshake_on_connect=False)
        threading.Thread(target=self.server.serve_forever, args=(0.02,), daemon=True).start()
        return self

    def end(self):
        if self.server:
            self.server.shutdown()
            self.server.server_close()
            self.server = None

    def __enter__(self):
        return self

    def __exit__(self, *words):
        self.end()

    def entry(self, **others):
        """Returns the receiver's entry of the file."""
        scheme, host = ("https", "localhost") if self.certificate else ("http", "127.0.0.1")
        return {"name": self.name, "url": f"{scheme}://{host}:{self.port}/events?key=QUERYSECRET", **others}

    def has(self, count, seconds=60):
        """Waits until it has accepted a number of events, and returns them."""
        assert until(lambda: len(self.events) >= count, seconds), (count, [brief(event) for event in self.events])
        return list(self.events)


def brief(event):
    """Returns what happened to what."""
    target = event["target"]
    return event["action"], target["repository"], target.get("tag") or target.get("digest")


def unique(events):
    """Returns the first delivery of each event, in their order."""
    seen = {}
    for event in events:
        seen.setdefault(event["id"], event)
    return list(seen.values())


def write_receivers(path, *entries):
    with open(path, "w") as file:
        json.dump({"receivers": list(entries)}, file)


@contextlib.contextmanager
def receivers_file(*entries):
    with tempfile.NamedTemporaryFile("w", suffix=".json") as file:
        write_receivers(file.name, *entries)
        yield file.name
