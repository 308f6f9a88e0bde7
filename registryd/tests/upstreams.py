"""Upstreams of mirrors: Debian's docker-registry, and a proxy in front of one that counts requests and makes faults."""
import base64, contextlib, http.client, http.server, json, os, secrets, subprocess, tempfile, threading, time, urllib.parse

from server import Client, free_port, sha256

USER, PASSWORD = "mirror", "open sesame"
# By bcrypt, with cost 4.
HASH = "$2b$04$xopi3af14F/1TaaxY3LMj.qRR70sqD9EcJHhM2CrzTqvwNPTYMjy2"


class Theirs:
    """A docker-registry over files. With `has_users` it takes one user and a password."""

    def __init__(self, folder, has_users=False):
        self.folder, self.port = folder, free_port()
        self.address = f"127.0.0.1:{self.port}"
        self.headers = {}
        auth = ""
        if has_users:
            with open(f"{folder}/htpasswd", "w") as file:
                file.write(f"{USER}:{HASH}\n")
            auth = f"auth: {{htpasswd: {{realm: theirs, path: {folder}/htpasswd}}}}\n"
            self.headers = {"Authorization": basic(USER, PASSWORD)}
        with open(f"{folder}/config.yml", "w") as file:
            file.write(f"version: 0.1\nlog: {{level: error}}\nstorage: {{filesystem: {{rootdirectory: {folder}/data}}, delete: {{enabled: true}}}}\n"
                       f"http: {{addr: \"{self.address}\"}}\n{auth}")
        self.start()

    def start(self):
        self.log = tempfile.TemporaryFile()
        words = ["docker-registry", "serve", f"{self.folder}/config.yml"]
        self.process = subprocess.Popen(words, stdout=self.log, stderr=self.log)
        end = time.time() + 60
        while True:
            with contextlib.suppress(OSError):
                if self.client().ask_once("GET", "/v2/").status == 200:
                    return
            assert time.time() < end and self.process.poll() is None, os.pread(self.log.fileno(), 2000, 0)
            time.sleep(0.02)

    def stop(self):
        self.process.kill()
        self.process.wait()

    def client(self):
        return Client(self.address, self.headers)

    def push(self, repo, data):
        """Pushes a blob, and returns its digest."""
        client = self.client()
        opened = client.ask("POST", f"/v2/{repo}/blobs/uploads/")
        assert opened.status == 202, opened.body
        place = urllib.parse.urlsplit(opened["Location"])
        answer = client.ask("PUT", f"{place.path}?{place.query}&digest={sha256(data)}", data, {"Content-Type": "application/octet-stream"})
        assert answer.status == 201, answer.body
        return sha256(data)

    def put(self, repo, reference, content, kind):
        answer = self.client().ask("PUT", f"/v2/{repo}/manifests/{reference}", content, {"Content-Type": kind})
        assert answer.status == 201, answer.body
        return sha256(content)


def basic(user, password):
    return "Basic " + base64.b64encode(f"{user}:{password}".encode()).decode()


class Proxy:
    """Passes requests on to a registry. Each fault is for the paths that have the text `only`:

    cut     bytes after which a response is cut
    stall   bytes after which a response stops for a long time
    flip    whether the last byte of the content is wrong
    pause   seconds before each 64 KiB of the content
    limit   seconds of a header Retry-After, with status 429
    status  status of an empty response
    drop    whether the connection ends without a response
    chunked whether the content has no length
    moved   address to which it redirects
    tokens  seconds for which a token is valid; `told` is what its server says
    """

    def __init__(self, target, headers=()):
        self.target, self.headers, self.asked, self.lock = target, dict(headers), [], threading.Lock()
        self.valid, self.issued = {}, 0
        self.heal()
        proxy = self

        class Handler(http.server.BaseHTTPRequestHandler):
            protocol_version = "HTTP/1.1"

            def do_GET(self):
                proxy.serve(self)

            do_HEAD = do_GET

            def log_message(self, *words):
                pass

        class Server(http.server.ThreadingHTTPServer):
            request_queue_size = 128
            daemon_threads = True

            def handle_error(self, request, address):
                pass

        self.server = Server(("127.0.0.1", 0), Handler)
        self.address = f"127.0.0.1:{self.server.server_address[1]}"
        threading.Thread(target=self.server.serve_forever, daemon=True).start()

    def heal(self):
        self.only, self.cut, self.stall, self.flip, self.pause, self.limit, self.status, self.moved = "", None, None, False, 0, None, None, None
        self.drop, self.chunked, self.sending, self.most_sending = False, False, 0, 0
        self.tokens, self.told, self.user = None, None, None

    def count(self, method, text):
        """Returns how many requests of a method had a text in their path."""
        with self.lock:
            return sum(1 for one, path, _ in self.asked if one == method and text in path)

    def end(self):
        self.server.shutdown()
        self.server.server_close()

    def serve(self, handler):
        with self.lock:
            self.asked.append((handler.command, handler.path, dict(handler.headers)))
        if handler.path.startswith("/token"):
            return self.issue(handler)
        if self.tokens is not None and not self.is_let_in(handler):
            realm = f'Bearer realm="http://{self.address}/token",service="theirs",scope="repository:x:pull"'
            return reply(handler, 401, b"{}", {"WWW-Authenticate": realm})
        if self.only in handler.path:
            if self.drop:
                handler.close_connection = True
                return
            if self.limit is not None:
                return reply(handler, 429, b"{}", {"Retry-After": str(self.limit)})
            if self.status is not None:
                return reply(handler, self.status, b"", {})
            if self.moved is not None:
                return reply(handler, 307, b"", {"Location": f"http://{self.moved}{handler.path}"})
        self.pass_on(handler)

    def issue(self, handler):
        if self.user is not None and handler.headers.get("Authorization") != self.user:
            return reply(handler, 401, b"{}", {})
        token = secrets.token_hex(8)
        with self.lock:
            self.issued += 1
            self.valid[token] = time.time() + self.tokens
        reply(handler, 200, json.dumps({"token": token, "expires_in": self.told or self.tokens}).encode(), {})

    def is_let_in(self, handler):
        words = handler.headers.get("Authorization", "").split()
        with self.lock:
            return len(words) == 2 and words[0] == "Bearer" and self.valid.get(words[1], 0) > time.time()

    def pass_on(self, handler):
        kept = {name: value for name, value in handler.headers.items() if name.lower() in ("accept", "if-none-match")}
        connection = http.client.HTTPConnection(self.target, timeout=60)
        try:
            connection.request(handler.command, handler.path, headers={**kept, **self.headers})
            response = connection.getresponse()
            body = response.read()
            length = response.headers.get("Content-Length")
        except OSError:
            handler.close_connection = True
            return
        finally:
            connection.close()
        is_faulty = self.only in handler.path
        handler.send_response(response.status)
        for name in ("Content-Type", "Docker-Content-Digest", "ETag", "Link"):
            if name in response.headers:
                handler.send_header(name, response.headers[name])
        if is_faulty and self.chunked:
            handler.send_header("Connection", "close")
            handler.send_header("Transfer-Encoding", "chunked")
        else:
            handler.send_header("Content-Length", length if handler.command == "HEAD" and length else str(len(body)))
        handler.end_headers()
        if handler.command == "GET":
            with self.lock:
                self.sending += 1
                self.most_sending = max(self.most_sending, self.sending)
            try:
                self.send(handler, body, is_faulty)
            finally:
                with self.lock:
                    self.sending -= 1

    def send(self, handler, body, is_faulty):
        if is_faulty and self.flip and body:
            body = body[:-1] + bytes([body[-1] ^ 1])
        for at in range(0, len(body), 65536):
            piece = body[at:at + 65536]
            if is_faulty and self.pause:
                time.sleep(self.pause)
            for fault in ("cut", "stall"):
                most = getattr(self, fault)
                if is_faulty and most is not None and at + len(piece) > most:
                    handler.wfile.write(piece[:max(0, most - at)])
                    handler.wfile.flush()
                    if fault == "stall":
                        time.sleep(20)
                    handler.close_connection = True
                    return
            handler.wfile.write(b"%x\r\n%s\r\n" % (len(piece), piece) if is_faulty and self.chunked else piece)
        if is_faulty and self.chunked:
            handler.wfile.write(b"0\r\n\r\n")
            handler.close_connection = True


def reply(handler, status, body, headers):
    handler.send_response(status)
    for name, value in headers.items():
        handler.send_header(name, value)
    handler.send_header("Content-Length", str(len(body)))
    handler.end_headers()
    if handler.command != "HEAD":
        handler.wfile.write(body)


@contextlib.contextmanager
def theirs(has_users=False):
    """Starts a docker-registry, and a proxy in front of it that knows its password."""
    with tempfile.TemporaryDirectory() as folder:
        registry = Theirs(folder, has_users)
        proxy = Proxy(registry.address, registry.headers)
        try:
            yield registry, proxy
        finally:
            proxy.end()
            registry.stop()
