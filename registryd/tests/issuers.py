"""Issuers of tokens with a discovery document and a key set (OpenID Connect Discovery 1.0), as build services and clusters have them. openssl
makes their keys and signs their tokens."""
import http.server, json, os, ssl, tempfile, threading, time

from tokens import encoded, make_key, of_der, openssl, sign, token

AUDIENCE = "registry.test"
KINDS = {"RS256": "RS256", "PS256": "RS256", "ES256": "ES256", "ES384": "ES384", "EdDSA": "EdDSA"}


def signed(path, algorithm, message):
    """Signs a message by an algorithm (RFC 7518, 3)."""
    if algorithm == "PS256":
        return openssl("dgst", "-sha256", "-sigopt", "rsa_padding_mode:pss", "-sigopt", "rsa_pss_saltlen:-1", "-sign", path, data=message)
    if algorithm == "ES384":
        return of_der(openssl("dgst", "-sha384", "-sign", path, data=message), 48)
    return sign(path, algorithm, message)


def public(path, kind):
    """Returns the members of a public key (RFC 7518, 6; RFC 8037, 2)."""
    if kind == "RS256":
        modulus = openssl("rsa", "-pubin", "-in", f"{path}.pub", "-noout", "-modulus").decode().strip().split("=")[1]
        return {"kty": "RSA", "n": encoded(bytes.fromhex(modulus)), "e": "AQAB"}
    der = openssl("pkey", "-pubin", "-in", f"{path}.pub", "-outform", "DER")
    if kind == "EdDSA":
        return {"kty": "OKP", "crv": "Ed25519", "x": encoded(der[-32:])}
    size, curve = {"ES256": (32, "P-256"), "ES384": (48, "P-384")}[kind]
    return {"kty": "EC", "crv": curve, "x": encoded(der[-2 * size:-size]), "y": encoded(der[-size:])}


class Issuer:
    """Serves a discovery document and a key set below each path, so that it is many issuers. Faults are functions of a handler by the beginning of
    a path; they reply themselves. With a folder `tls` of a certificate, it is `localhost` by HTTPS."""

    def __init__(self, tls=None):
        self.folder, self.tls, self.port = tempfile.TemporaryDirectory(), tls, 0
        self.keys, self.asked, self.faults, self.lock = {}, [], {}, threading.Lock()
        self.begin()

    def begin(self):
        issuer = self

        class Handler(http.server.BaseHTTPRequestHandler):
            def do_GET(self):
                issuer.serve(self)

            def log_message(self, *words):
                pass

        class Server(http.server.ThreadingHTTPServer):
            request_queue_size = 128
            daemon_threads = True

            def handle_error(self, request, address):
                pass

        self.server = Server(("127.0.0.1", self.port), Handler)
        self.port = self.server.server_port
        self.url = f"http://127.0.0.1:{self.port}"
        if self.tls:
            self.url = f"https://localhost:{self.port}"
            context = ssl.SSLContext(ssl.PROTOCOL_TLS_SERVER)
            context.load_cert_chain(f"{self.tls}/own.crt", f"{self.tls}/own.key")
            self.server.socket = context.wrap_socket(self.server.socket, server_side=True)
        threading.Thread(target=self.server.serve_forever, daemon=True).start()

    def stop(self):
        """Stops serving. It may begin again on its port."""
        self.server.shutdown()
        self.server.server_close()

    def make_key(self, kid, algorithm="ES256"):
        """Makes a key, which is in the set from now on."""
        path = os.path.join(self.folder.name, kid)
        make_key(path, KINDS[algorithm])
        self.keys[kid] = {**public(path, KINDS[algorithm]), "kid": kid, "use": "sig", "alg": algorithm}

    def claims(self, **others):
        now = int(time.time())
        found = {"iss": self.url, "aud": AUDIENCE, "sub": "repo:org/app:ref:refs/heads/main", "exp": now + 300, "iat": now, "nbf": now,
                 "repository": "org/app", "ref": "refs/heads/main", **others}
        return {name: value for name, value in found.items() if value is not None}

    def token(self, kid="1", algorithm=None, key=None, head=None, sign=signed, **claims):
        """Returns a token that a key signed, with these claims instead of others."""
        algorithm = algorithm or self.keys.get(kid, {}).get("alg", "ES256")
        path = os.path.join(self.folder.name, key or kid)
        return token(path, algorithm, self.claims(**claims), head or {"alg": algorithm, "kid": kid, "typ": "JWT"}, sign)

    def count(self, text=""):
        """Returns how many requests had a text in their path."""
        with self.lock:
            return sum(text in path for path in self.asked)

    def serve(self, handler):
        with self.lock:
            self.asked.append(handler.path)
            faults = dict(self.faults)
        for begin, fault in faults.items():
            if handler.path.startswith(begin):
                return fault(handler)
        known = "/.well-known/openid-configuration"
        base = handler.path[:-len(known)] if handler.path.endswith(known) else None
        if base is not None:
            return reply(handler, 200, {"issuer": f"{self.url}{base}", "jwks_uri": f"{self.url}{base}/keys"})
        if handler.path.endswith("/keys"):
            return reply(handler, 200, {"keys": list(self.keys.values())})
        reply(handler, 404, {})


def reply(handler, status, value, headers=()):
    body = value if isinstance(value, bytes) else json.dumps(value).encode()
    handler.send_response(status)
    for name, text in dict(headers).items():
        handler.send_header(name, text)
    handler.send_header("Content-Length", str(len(body)))
    handler.end_headers()
    handler.wfile.write(body)
