#!/usr/bin/env python3
"""Tests bearer tokens that openssl signs: good ones of each type of key, bad ones, what tokens allow, keys that are read again, and
skopeo, podman and docker with a small token server that gives everybody a token to read what is public."""
import base64, contextlib, hashlib, hmac, http.server, json, os, subprocess, sys, tempfile, threading, time
import urllib.parse

from clients import docker_with_a_file, run
from hardships import PATCH, played
from images import image, same_blobs, skopeo
from limits import CHEAP, basic, users
from rights import fails, has_podman, podman, put_image, status
from server import serving, sha256
from statuses import check, ended

SERVICE, ISSUER = "registry.test", "login.test"
MAKE = {"RS256": ["RSA", "-pkeyopt", "rsa_keygen_bits:2048"], "ES256": ["EC", "-pkeyopt", "ec_paramgen_curve:P-256"], "EdDSA": ["ED25519"],
        "ES384": ["EC", "-pkeyopt", "ec_paramgen_curve:P-384"], "short": ["RSA", "-pkeyopt", "rsa_keygen_bits:1024"]}


def openssl(*words, data=None):
    return subprocess.run(["openssl", *words], input=data, stdout=subprocess.PIPE, stderr=subprocess.PIPE, check=True).stdout


def make_key(path, kind):
    """Makes a private key, and its public key at `path`.pub."""
    openssl("genpkey", "-algorithm", *MAKE[kind], "-out", path)
    openssl("pkey", "-in", path, "-pubout", "-out", f"{path}.pub")


def encoded(data):
    return base64.urlsafe_b64encode(data).rstrip(b"=").decode()


def of_der(signature, size=32):
    """Returns the two numbers of a signature in DER as `size` bytes each (RFC 7518, 3.4)."""
    first = 4 + signature[3]
    numbers = signature[4:first], signature[first + 2:]
    return b"".join(number[-size:].rjust(size, b"\0") for number in numbers)


def sign(path, algorithm, message):
    if algorithm == "EdDSA":
        with tempfile.NamedTemporaryFile() as file:
            file.write(message)
            file.flush()
            return openssl("pkeyutl", "-sign", "-inkey", path, "-rawin", "-in", file.name)
    signature = openssl("dgst", "-sha256", "-sign", path, data=message)
    return of_der(signature) if algorithm == "ES256" else signature


def claims(access=(), **others):
    now = int(time.time())
    found = {"iss": ISSUER, "aud": SERVICE, "sub": "jo", "exp": now + 100, "nbf": now, "iat": now, "access": access, **others}
    return {name: value for name, value in found.items() if value is not None}


def token(path, algorithm="RS256", words=None, head=None, sign=sign):
    """Returns a token with these claims, signed with the key at `path`."""
    head = head or {"typ": "JWT", "alg": algorithm}
    message = f"{encoded(json.dumps(head).encode())}.{encoded(json.dumps(words or claims()).encode())}"
    return f"{message}.{encoded(sign(path, algorithm, message.encode()))}"


def entry(name, *actions):
    return {"type": "repository", "name": name, "actions": list(actions)}


def bearer(text):
    return {"Authorization": f"Bearer {text}"}


@contextlib.contextmanager
def serving_tokens(*words, kind="RS256", realm="http://127.0.0.1:1/token"):
    """Starts a registry that accepts tokens. Returns it and the path of its issuer's private key."""
    with tempfile.TemporaryDirectory() as folder:
        key = f"{folder}/key"
        make_key(key, kind)
        names = ["--token-realm", realm, "--token-service", SERVICE, "--token-issuer", ISSUER]
        with serving("--token-key", f"{key}.pub", *names, *words) as server:
            yield server, key


def a_token_of_each_type_of_key():
    for kind in ("ES256", "EdDSA"):
        with serving_tokens(kind=kind) as (server, key):
            for _ in range(3):
                assert server.client(bearer(token(key, kind))).ask("GET", "/v2/").status == 200, kind
            assert server.client(bearer(token(key, kind) + "A")).ask("GET", "/v2/").status == 401, kind


def bad_tokens_are_refused():
    with serving_tokens() as (server, key):
        other = f"{key}.other"
        make_key(other, "RS256")
        now = int(time.time())
        good = token(key)
        head, body, signature = good.split(".")
        with open(f"{key}.pub", "rb") as file:
            public = file.read()
        def mac(secret):
            return lambda path, algorithm, message: hmac.new(secret, message, hashlib.sha256).digest()
        none = lambda path, algorithm, message: b""
        bad = [
            token(other), f"{head}.{body}.", f"{head}.{body}", f"{head}.{encoded(b'{}')}.{signature}", good[:-2], "a.b.c",
            token(key, words=claims(exp=now - 90)), token(key, words=claims(exp=None)), token(key, words=claims(nbf=now + 90)),
            token(key, words=claims(aud="other")), token(key, words=claims(aud=None)), token(key, words=claims(iss="other")),
            token(key, words=claims(iss=None)), token(key, words=claims(access="all")), token(key, words=claims(sub="x" * 20_000)),
            token(key, head={"typ": "JWT", "alg": "none"}, sign=none), token(key, head={"typ": "JWT", "alg": "none"}),
            token(key, head={"typ": "JWT", "alg": "HS256"}, sign=mac(public)), token(key, head={"alg": "HS256"}, sign=mac(public.strip())),
            token(key, head={"typ": "JWT", "alg": "HS256"}, sign=mac(openssl("pkey", "-pubin", "-in", f"{key}.pub", "-outform", "DER"))),
            token(key, head={"typ": "JWT", "alg": "RS512"}), token(key, head={"typ": "JWT", "alg": "RS256", "crit": ["exp"]}),
        ]
        client = server.client()
        for text in bad:
            answer = client.ask("GET", "/v2/", headers=bearer(text))
            assert answer.status == 401 and 'error="invalid_token"' in answer["WWW-Authenticate"], (text, answer.status)
        for words in (claims(exp=now - 30), claims(nbf=now + 30), claims(aud=["a", SERVICE]), claims(nbf=None, access=None)):
            assert client.ask("GET", "/v2/", headers=bearer(token(key, words=words))).status == 200, words
        assert client.ask("GET", "/v2/", headers=bearer(good)).status == 200
        log = server.logged()
        assert "refused a token" in log and body not in log and signature not in log


def a_challenge_names_what_is_needed():
    with serving_tokens() as (server, key):
        base = f'Bearer realm="http://127.0.0.1:1/token",service="{SERVICE}"'
        for method, path, scope in (("GET", "/v2/", None), ("GET", "/metrics", None), ("GET", "/v2/acme/app/manifests/v1", "pull"),
                                    ("HEAD", "/v2/acme/app/blobs/x", "pull"), ("POST", "/v2/acme/app/blobs/uploads/", "pull,push"),
                                    ("PUT", "/v2/acme/app/manifests/v1", "pull,push"), ("DELETE", "/v2/acme/app/manifests/v1", "delete")):
            wanted = base + (f',scope="repository:acme/app:{scope}"' if scope else "")
            answer = server.client().ask(method, path)
            assert (answer.status, answer["WWW-Authenticate"]) == (401, wanted), (method, path, answer["WWW-Authenticate"])
            assert server.client(basic("acme:secret")).ask(method, path)["WWW-Authenticate"] == wanted
            if scope:
                answer = server.client(bearer(token(key))).ask(method, path)
                assert (answer.status, answer["WWW-Authenticate"]) == (401, f'{wanted},error="insufficient_scope"')
        answer = server.client().ask("GET", "/v2/a%22,error=%22b/manifests/v1")
        assert (answer.status, answer["WWW-Authenticate"]) == (401, base)


def a_token_allows_what_it_lists():
    with serving_tokens() as (server, key):
        def of(*access):
            return server.client(bearer(token(key, words=claims(access))))
        push = of(entry("acme/app", "pull", "push"))
        digest = put_image(push, "acme/app")[2]
        at = "/v2/acme/app"
        pull = of(entry("acme/app", "pull"), entry("acme/app/web", "*"))
        assert pull.ask("GET", f"{at}/manifests/v1").status == 200 and pull.ask("GET", f"{at}/tags/list").status == 200
        assert pull.ask("PUT", f"{at}/manifests/v2", b"{}").status == 401 and pull.ask("POST", f"{at}/blobs/uploads/").status == 401
        assert push.ask("DELETE", f"{at}/manifests/v1").status == 401
        for others in (of(), of(entry("acme", "*")), of({**entry("acme/app", "*"), "type": "registry"}), of(entry("acme/app/web", "pull"))):
            assert others.ask("GET", f"{at}/manifests/v1").status == 401
        # A mount from a repository that the token does not list opens an upload.
        for access, expected in (((entry("acme/two", "push"),), 202), ((entry("acme/two", "push"), entry("acme/app", "pull")), 201)):
            assert of(*access).ask("POST", f"/v2/acme/two/blobs/uploads/?mount={digest}&from=acme/app").status == expected
        assert of(entry("acme/app", "delete")).ask("DELETE", f"{at}/manifests/v1").status == 202
        assert of(entry("acme/app", "*")).ask("DELETE", f"{at}/blobs/{digest}").status == 403
        server.wait_for('status=202 .*user="jo"')


def a_mount_without_a_source_needs_the_whole_tenant():
    """A token for the repository that is named as the tenant is no token for the tenant."""
    with serving_tokens() as (server, key):
        def of(*access):
            return server.client(bearer(token(key, words=claims(access))))
        secret = b"secret"
        digest = sha256(secret)
        def mounted(client, into, query=""):
            return client.ask("POST", f"/v2/{into}/blobs/uploads/?mount={digest}{query}").status
        owner = of(entry("acme/secret", "pull", "push"))
        assert owner.ask("POST", f"/v2/acme/secret/blobs/uploads/?digest={digest}", secret, PATCH).status == 201
        named_as_tenant = of(entry("acme", "*"), entry("acme/two", "*"))
        for into in ("acme", "acme/two"):
            for query in ("", "&from=", "&from=acme", "&from=acme/secret", "&from=acme/secret&from=acme"):
                assert mounted(named_as_tenant, into, query) == 202, (into, query)
            assert named_as_tenant.ask("GET", f"/v2/{into}/blobs/{digest}").status == 404, into
        # What the repository has itself is linked again, and a source that the token lists is read.
        assert mounted(owner, "acme/secret") == 201
        both = of(entry("acme/two", "push"), entry("acme/secret", "pull"))
        assert (mounted(both, "acme/two"), mounted(both, "acme/two", "&from=acme/secret")) == (202, 201)
    # A line of the rights for the tenant holds for all below it, also for a token if it is everybody's.
    with users(f"acme:{CHEAP}", f"one:{CHEAP}") as file, users("acme read,write acme", "one read,write acme/one", "* read other") as rights:
        with serving_tokens("--htpasswd", file, "--rights", rights) as (server, key):
            acme, one = (server.client(basic(f"{user}:secret")) for user in ("acme", "one"))
            public = server.client(bearer(token(key, words=claims([entry("other/one", "push", "pull"), entry("other/two", "push")]))))
            for client, repo in ((acme, "acme/secret"), (public, "other/one")):
                assert client.ask("POST", f"/v2/{repo}/blobs/uploads/?digest={digest}", secret, PATCH).status == 201
            assert (mounted(one, "acme/one"), mounted(acme, "acme/one"), mounted(public, "other/two")) == (202, 201, 201)


def a_token_may_list_the_catalog():
    """By `registry:catalog:*`, which the challenge names (Docker's "Token Scope Documentation")."""
    with serving_tokens() as (server, key):
        def of(*access):
            return server.client(bearer(token(key, words=claims(access))))
        for repo in ("acme/one", "other/two"):
            put_image(of(entry(repo, "pull", "push")), repo)
        scope = 'scope="registry:catalog:*"'
        for client in (server.client(), server.client(bearer("a.b.c"))):
            answer = client.ask("GET", "/v2/_catalog")
            assert answer.status == 401 and scope in answer["WWW-Authenticate"], answer["WWW-Authenticate"]
        def listed(*access):
            answer = of(*access).ask("GET", "/v2/_catalog")
            assert answer.status == 200, answer.status
            return json.loads(answer.body)["repositories"]
        catalog = {"type": "registry", "name": "catalog", "actions": ["*"]}
        assert listed(catalog) == ["acme/one", "other/two"]
        assert listed(entry("other/two", "pull")) == ["other/two"]
        for other in ({**catalog, "type": "repository"}, {**catalog, "name": "other"}, {**catalog, "actions": ["pull"]}, {**catalog, "actions": None}):
            assert listed(other) == [], other
        # The list gives no right to read what it names.
        assert of(catalog).ask("GET", "/v2/acme/one/manifests/v1").status == 401


def a_log_line_has_a_short_user():
    with serving_tokens() as (server, key):
        before = len(server.logged())
        assert server.client(bearer(token(key, words=claims(sub="x" * 5_000)))).ask("GET", "/v2/").status == 200
        server.wait_for(r"status=200 .*\.\.\. \(5000 bytes\)")
        assert len(server.logged()) - before < 1_000, len(server.logged()) - before


def keys_are_read_again():
    with serving_tokens() as (server, key):
        def status(path, algorithm="RS256"):
            return server.client(bearer(token(path, algorithm))).ask("GET", "/v2/").status
        new = f"{key}.new"
        make_key(new, "ES256")
        with open(f"{key}.pub") as first, open(f"{new}.pub") as second:
            old, both = first.read(), second.read()
        both += old
        assert (status(key), status(new, "ES256")) == (200, 401)
        for text, wanted in ((both, (200, 200)), (open(f"{new}.pub").read(), (401, 200))):
            with open(f"{key}.pub", "w") as file:
                file.write(text)
            server.reload("read the token keys again")
            assert (status(key), status(new, "ES256")) == wanted
        for text, why in (("", "no public key in PEM"), (open(new).read(), "a block is not PUBLIC KEY: PRIVATE KEY")):
            with open(f"{key}.pub", "w") as file:
                file.write(text)
            server.reload(f"{key}.pub: {why}: kept the token keys")
            assert (status(key), status(new, "ES256")) == (401, 200)
        os.remove(f"{key}.pub")
        os.mkfifo(f"{key}.pub")
        server.reload(f"{key}.pub: not a regular file: kept the token keys")
        assert (status(key), status(new, "ES256")) == (401, 200)


def passwords_and_tokens_go_together():
    with users(f"acme:{CHEAP}", f"prometheus:{CHEAP}") as file, users("acme read,write,delete acme", "* read acme/public") as rights:
        with serving_tokens("--htpasswd", file, "--rights", rights, "--metrics-user", "prometheus") as (server, key):
            put_image(server.client(basic("acme:secret")), "acme/public")
            assert (status(server, "acme"), status(server, "acme", password="wrong")) == (200, 401)
            assert server.client(basic("acme:wrong")).ask("GET", "/v2/")["WWW-Authenticate"].startswith("Bearer ")
            assert (status(server, "prometheus", path="/metrics"), status(server, "acme", path="/metrics")) == (200, 403)
            # A token with the name of that user is not that user.
            named = server.client(bearer(token(key, words=claims(sub="prometheus"))))
            assert named.ask("GET", "/metrics").status == 403
            for reader in (named, server.client()):
                assert reader.ask("GET", "/v2/acme/public/manifests/v1").status == 200
                assert reader.ask("DELETE", "/v2/acme/public/manifests/v1").status == 401


def a_start_names_the_key():
    with tempfile.TemporaryDirectory() as folder:
        for kind in ("ES384", "short"):
            make_key(f"{folder}/{kind}", kind)
        open(f"{folder}/empty", "w").close()
        names = ["--token-realm", "http://a/token", "--token-service", SERVICE, "--token-issuer", ISSUER]
        unsupported = "a key is not RSA from 2,048 bits, P-256 or Ed25519"
        for name, why in (("ES384.pub", unsupported), ("short.pub", unsupported), ("ES384", "a block is not PUBLIC KEY: PRIVATE KEY"),
                          ("empty", "no public key in PEM"), ("none", "No such file")):
            check(ended("--token-key", f"{folder}/{name}", *names), 1, f"cannot read the token keys: {folder}/{name}: {why}")
        check(ended("--token-key", f"{folder}/ES384.pub", *names[:4]), 2, "--token-issuer")


class TokenServer(http.server.ThreadingHTTPServer):
    """Gives the user acme a token for all that it asks for, and everybody one to read acme/public."""
    key = None
    asked = ()

    class Handler(http.server.BaseHTTPRequestHandler):
        def do_GET(self):
            query = urllib.parse.parse_qs(urllib.parse.urlsplit(self.path).query)
            login = self.headers.get("Authorization")
            is_known = login == basic("acme:secret")["Authorization"]
            if login and not is_known and login != basic(":")["Authorization"]:
                self.send_error(401)
                return
            access = []
            for scope in query.get("scope", []):
                kind, name, actions = scope.split(":")
                granted = [action for action in actions.split(",") if is_known or (action == "pull" and name == "acme/public")]
                access.append({"type": kind, "name": name, "actions": granted})
            self.server.asked += ((query["service"], query.get("scope")),)
            text = token(self.server.key, words=claims(access, sub="acme" if is_known else ""))
            body = json.dumps({"token": text, "access_token": text, "expires_in": 100}).encode()
            self.send_response(200)
            self.send_header("Content-Type", "application/json")
            self.send_header("Content-Length", str(len(body)))
            self.end_headers()
            self.wfile.write(body)

        def log_message(self, *words):
            pass


@contextlib.contextmanager
def serving_with_issuer():
    issuer = TokenServer(("127.0.0.1", 0), TokenServer.Handler)
    threading.Thread(target=issuer.serve_forever, daemon=True).start()
    try:
        with serving_tokens(realm=f"http://127.0.0.1:{issuer.server_port}/token") as (server, key):
            issuer.key = key
            yield server, issuer
    finally:
        issuer.shutdown()
        issuer.server_close()


def clients_get_tokens():
    with serving_with_issuer() as (server, issuer), tempfile.TemporaryDirectory() as top:
        image(f"{top}/image", [1000], 1)
        at, login, plain = f"docker://{server.address}/acme", "acme:secret", "--dest-tls-verify=false"
        push = ["copy", plain, f"oci:{top}/image:latest"]
        skopeo(*push, "--dest-creds", login, f"{at}/public:v1")
        skopeo(*push, "--dest-creds", login, f"{at}/app:v1")
        assert ([SERVICE], ["repository:acme/app:pull,push"]) in issuer.asked, issuer.asked
        skopeo("copy", "--src-no-creds", "--src-tls-verify=false", f"{at}/public:v1", f"oci:{top}/back:latest")
        same_blobs(f"{top}/image", f"{top}/back")
        fails(lambda: skopeo("copy", "--src-no-creds", "--src-tls-verify=false", f"{at}/app:v1", f"oci:{top}/none:latest"))
        fails(lambda: skopeo(*push, "--dest-no-creds", f"{at}/public:v2"))
        fails(lambda: skopeo(*push, "--dest-creds", "acme:wrong", f"{at}/app:v2"))
        skopeo("copy", "--src-creds", login, "--src-tls-verify=false", "--dest-creds", login, plain, f"{at}/app:v1", f"{at}/copy:v1")
        skopeo("delete", "--creds", login, "--tls-verify=false", f"{at}/app:v1")
        if has_podman("tokens"):
            public, own = f"{server.address}/acme/public:v1", f"{server.address}/acme/podman:v1"
            podman(top, "pull", "--tls-verify=false", public)
            podman(top, "push", "--tls-verify=false", "--creds", login, public, own)
            fails(lambda: podman(top, "pull", "--tls-verify=false", own))


def docker_gets_tokens():
    with serving_with_issuer() as (server, _), tempfile.TemporaryDirectory() as top:
        docker = docker_with_a_file(top, "tokens")
        if docker is None:
            return
        try:
            public, own = f"{server.address}/acme/public:v1", f"{server.address}/acme/app:v1"
            fails(lambda: run(*docker.words, "login", "-u", "acme", "-p", "wrong", server.address))
            run(*docker.words, "login", "-u", "acme", "-p", "secret", server.address)
            docker.push(public)
            docker.push(own)
            run(*docker.words, "logout", server.address)
            docker.forget()
            assert docker.pull(public) == {"file": b"content"}
            fails(lambda: docker.pull(own))
            fails(lambda: run(*docker.words, "push", "-q", public))
        finally:
            docker.end()


TESTS = [a_token_of_each_type_of_key, bad_tokens_are_refused, a_challenge_names_what_is_needed, a_token_allows_what_it_lists,
         a_mount_without_a_source_needs_the_whole_tenant, a_token_may_list_the_catalog, a_log_line_has_a_short_user, keys_are_read_again, passwords_and_tokens_go_together, a_start_names_the_key, clients_get_tokens, docker_gets_tokens]


def main():
    names = sys.argv[1:]
    tests = [test for test in TESTS if not names or test.__name__ in names]
    wrong = sum(played(test) for test in tests)
    print(f"tokens: {len(tests) - wrong} passed, {wrong} failed")
    sys.exit(wrong > 0)


if __name__ == "__main__":
    main()
