#!/usr/bin/env python3
"""Tests tokens of issuers that are found by their discovery document (`--oidc`): keys of each type, rights by claims, tokens that are refused,
keys that rotate, issuers that are down, slow or lie, crowds, reloads, and skopeo, podman and docker without a stored secret."""
import concurrent.futures, contextlib, hashlib, hmac, json, os, re, sys, tempfile, time

from clients import docker_with_a_file, run
from documented import blocks
from hardships import PATCH, played
from images import image, same_blobs, skopeo
from issuers import AUDIENCE, Issuer, KINDS, reply
from limits import CHEAP, basic, users
from mirror import signed as certificates
from playing import until
from receivers import Receiver
from rights import fails, has_podman, podman, put_image, write
from server import Client, serving
from statuses import check, ended
from tokens import bearer, openssl, serving_tokens, token, claims, entry

ALLOW = "allow ci read,write acme/app repository=org/app ref=refs/heads/main"


@contextlib.contextmanager
def issuing(*kids, tls=None):
    """Starts an issuer with keys on P-256."""
    issuer = Issuer(tls)
    try:
        for kid in kids or ("1",):
            issuer.make_key(kid)
        yield issuer
    finally:
        issuer.stop()
        issuer.folder.cleanup()


@contextlib.contextmanager
def serving_oidc(issuer, *words, rules=(ALLOW,), **options):
    """Starts a registry that accepts tokens of an issuer. Returns it and its file."""
    with users(f"issuer ci {issuer.url} {AUDIENCE}", *rules) as file, serving("--oidc", file, *words, **options) as server:
        yield server, file


def login(text, name="ci"):
    """Returns the header with a token, as clients send it after a login."""
    return basic(f"oidc+{name}:{text}")


def asked(server, text, path="/v2/", method="GET", name="ci"):
    return server.client(login(text, name)).ask(method, path)


def status(server, text, path="/v2/", method="GET", name="ci"):
    """Returns the status of a request with a token."""
    return asked(server, text, path, method, name).status


def metric(server, name):
    """Returns the value of a counter on the metrics address, or nothing."""
    text = Client(server.wait_for(r"serving metrics address=(\S+)")).ask("GET", "/metrics").body.decode()
    return dict(line.rsplit(" ", 1) for line in text.splitlines() if line.startswith("registryd_oidc")).get(name)


METRICS = ("--metrics-listen", "127.0.0.1:0")


def a_token_of_each_algorithm_pushes():
    with issuing() as issuer:
        for algorithm in KINDS:
            issuer.make_key(f"key-{algorithm}", algorithm)
        # Key sets have keys for other purposes, too.
        issuer.keys["oct"] = {"kty": "oct", "kid": "oct", "k": "c2VjcmV0", "alg": "HS256"}
        issuer.keys["enc"] = {**issuer.keys["key-RS256"], "kid": "enc", "use": "enc", "alg": "RSA-OAEP"}
        with serving_oidc(issuer) as (server, _):
            for algorithm in KINDS:
                text = issuer.token(f"key-{algorithm}")
                manifest = put_image(server.client(login(text)), "acme/app")[0]
                assert asked(server, text, "/v2/acme/app/manifests/v1").body == manifest, algorithm
                assert status(server, text + "A") == 401, algorithm
                # The same without a user.
                assert server.client(bearer(text)).ask("GET", "/v2/acme/app/manifests/v1").status == 200, algorithm
                assert server.client(bearer(text[:-8] + "AAAAAAAA")).ask("GET", "/v2/").status == 401, algorithm
            for kid in ("oct", "enc"):
                assert status(server, issuer.token(kid, "RS256", key="key-RS256")) == 401, kid
            # An RSA key that names no algorithm verifies those of RSA.
            del issuer.keys["key-RS256"]["alg"]
            issuer.keys["new"] = {**issuer.keys["key-RS256"], "kid": "new"}
            texts = [issuer.token("new", algorithm, key="key-RS256") for algorithm in ("RS256", "PS256")]
            assert until(lambda: status(server, texts[0]) == 200) and status(server, texts[1]) == 200
            assert status(server, issuer.token("new", "ES256", key="1")) == 401


def claims_give_rights():
    rules = (ALLOW, "allow ci read acme/base repository_owner_id=12*", "allow ci read,write,delete other /kubernetes.io/namespace=builds",
             "allow ci read,write acme/release repository=org/app ref=refs/tags/v?.*")
    with issuing() as issuer, tempfile.TemporaryDirectory() as top, Receiver().begin() as receiver:
        entries = json.dumps({"receivers": [receiver.entry()]})
        with users(entries) as events, serving_oidc(issuer, "--audit-log", f"{top}/audit", "--events", events, rules=rules) as (server, _):
            main, other = issuer.token(), issuer.token(ref="refs/heads/x", repository_owner_id="1234", sub="a b\n\"c")
            tag, no_tag = (issuer.token(ref=ref, sub=ref) for ref in ("refs/tags/v1.2", "refs/tags/v12"))
            cluster = issuer.token(repository=None, sub="system:serviceaccount:builds:b", **{"kubernetes.io": {"namespace": "builds"}})
            put_image(server.client(login(main)), "acme/app")
            put_image(server.client(login(cluster)), "other/x")
            for text, method, path, expected in (
                    (main, "GET", "/v2/", 200), (main, "GET", "/v2/acme/app/manifests/v1", 200), (main, "DELETE", "/v2/acme/app/manifests/v1", 403),
                    (main, "POST", "/v2/acme/app/web/blobs/uploads/", 202), (main, "POST", "/v2/acme/apple/blobs/uploads/", 403),
                    (main, "GET", "/v2/other/x/manifests/v1", 403), (main, "GET", "/metrics", 403), (main, "GET", "/status", 403),
                    (tag, "POST", "/v2/acme/release/x/blobs/uploads/", 202), (tag, "POST", "/v2/acme/app/blobs/uploads/", 403),
                    (no_tag, "POST", "/v2/acme/release/blobs/uploads/", 401), (main, "GET", "/v2/acme/release/manifests/v1", 403),
                    (other, "GET", "/v2/acme/app/manifests/v1", 403), (other, "GET", "/v2/acme/base/manifests/v1", 404),
                    (other, "POST", "/v2/acme/base/blobs/uploads/", 403), (cluster, "DELETE", "/v2/other/x/manifests/v1", 202)):
                answer = asked(server, text, path, method)
                assert answer.status == expected, (method, path, answer.status, answer.body)
            put_image(server.client(login(cluster)), "other/x")
            for text, repositories in ((main, ["acme/app"]), (other, []), (cluster, ["other/x"])):
                assert json.loads(asked(server, text, "/v2/_catalog").body)["repositories"] == repositories, repositories
            name = "oidc+ci/repo:org/app:ref:refs/heads/main"
            assert f"{name} does not have the right to write in acme/apple" in asked(server, main, "/v2/acme/apple/blobs/uploads/", "POST").body.decode()
            server.wait_for(r'path="/v2/acme/app/manifests/v1" status=201 .*user="' + re.escape(name) + '"')
            server.wait_for(r'status=404 .*user="oidc\+ci/a%20b%0A%22c"')
            lines = lambda: [json.loads(line) for line in open(f"{top}/audit")]
            assert until(lambda: {line["user"] for line in lines()} >= {name, "oidc+ci/a%20b%0A%22c", "oidc+ci/system:serviceaccount:builds:b"}), lines()
            assert {"name": name} in [event["actor"] for event in receiver.has(6)]
            # No part of a token is anywhere, but what its claims have.
            with open(f"{top}/audit") as file:
                written = file.read() + server.logged() + json.dumps(receiver.has(6))
            for text in (main, other, cluster):
                assert not [part for part in text.split(".") if part in written]


def bad_tokens_are_refused():
    with issuing("1", "2") as issuer, issuing("1") as stranger, serving_oidc(issuer, *METRICS) as (server, _):
        now = int(time.time())
        good = issuer.token()
        head, body, signature = good.split(".")
        pem = open(f"{issuer.folder.name}/1.pub", "rb").read()
        der = openssl("pkey", "-pubin", "-in", f"{issuer.folder.name}/1.pub", "-outform", "DER")
        mac = lambda secret: lambda path, algorithm, message: hmac.new(secret, message, hashlib.sha256).digest()
        none = lambda path, algorithm, message: b""
        bad = {
            "malformed": ["", "x", "a.b.c", f"{head}.{body}", issuer.token(exp=None), issuer.token(iat=None), issuer.token(sub=None),
                          issuer.token(aud=None), issuer.token(head={"alg": "ES256"}), issuer.token(sub="x" * 20_000)],
            "algorithm": [issuer.token(head={"alg": "none", "kid": "1"}, sign=none), issuer.token(head={"alg": "RS512", "kid": "1"}),
                          *(issuer.token(head={"alg": "HS256", "kid": "1"}, sign=mac(secret)) for secret in (pem, pem.strip(), der, der[-65:], b""))],
            "issuer": [issuer.token(iss=f"{issuer.url}/"), issuer.token(iss="https://other"), issuer.token(iss=None), stranger.token(), f"{head}.e30.{signature}"],
            "signature": [good[:-8] + "AAAAAAAA", issuer.token(key="2"), f"{head}.{body}.", stranger.token(iss=issuer.url),
                          f"{head}.{issuer.token(repository='org/x').split('.')[1]}.{signature}"],
            "audience": [issuer.token(aud="other"), issuer.token(aud=["a", "b"]), issuer.token(aud=[])],
            "expired": [issuer.token(exp=now - 120)],
            "early": [issuer.token(nbf=now + 600), issuer.token(iat=now + 600)],
            "no-rule": [issuer.token(repository="org/apple"), issuer.token(repository="evil/app"), issuer.token(ref="refs/tags/main"), issuer.token(ref=None)],
        }
        for reason, texts in bad.items():
            for text in texts:
                answer = asked(server, text)
                assert (answer.status, answer["WWW-Authenticate"]) == (401, 'Basic realm="registry", charset="UTF-8"'), (reason, text, answer.status, answer.body)
                assert b"the token is refused: " in answer.body, (reason, text, answer.body)
            found = metric(server, f'registryd_oidc_refusals_total{{issuer="ci",reason="{reason}"}}')
            assert found == str(len(texts)), (reason, found)
        # With other users, and as what is no user.
        for user in ("oidc+other", "oidc+", "oidc", "ci", "robot+ci", "acme", "OIDC+ci"):
            answer = server.client(basic(f"{user}:{good}")).ask("GET", "/v2/")
            assert answer.status == 401 and (b"the user is not oidc+NAME" in answer.body) == user.startswith("oidc+"), (user, answer.body)
        assert server.client().ask("GET", "/v2/").status == server.client(bearer("x")).ask("GET", "/v2/").status == 401
        for text in (good, issuer.token(aud=["x", AUDIENCE]), issuer.token(exp=now - 30), issuer.token(nbf=None), issuer.token(head={"alg": "ES256", "kid": "1"})):
            assert status(server, text) == 200, text
        log = server.logged()
        assert "refused a token" in log and "oidc+ci/repo:org/app" in log and not [part for part in (body, signature) if part in log]
        assert metric(server, 'registryd_oidc_fetches_total{issuer="ci",result="done"}') == "1" and issuer.count() == 2


def a_token_ends():
    """Also on an open connection, while a request that has begun goes on. Clocks may differ by a minute."""
    with issuing() as issuer, serving_oidc(issuer) as (server, _):
        headers = login(issuer.token(exp=int(time.time()) - 40))
        client, uploader = server.client(headers), server.client(headers)
        upload = uploader.ask("POST", "/v2/acme/app/blobs/uploads/")
        assert (client.ask("GET", "/v2/").status, upload.status) == (200, 202)
        def chunks():
            yield b"begun"
            assert until(lambda: client.ask("GET", "/v2/").status == 401)
            yield b"ended"
        answer = uploader.ask_once("PATCH", upload["Location"], chunks(), {**PATCH, "Transfer-Encoding": "chunked"})
        assert (answer.status, answer["Range"]) == (202, "0-9"), (answer.status, answer.body)
        assert b"it has expired" in client.ask("GET", "/v2/").body and uploader.ask("GET", upload["Location"]).status == 401


def keys_rotate():
    with issuing() as issuer, serving_oidc(issuer) as (server, _):
        old = issuer.token("1")
        assert status(server, old) == 200
        issuer.make_key("2")
        new = issuer.token("2")
        assert until(lambda: status(server, new) == 200) and status(server, old) == 200
        # A key that left the set is used until the next fetch, which SIGHUP causes.
        del issuer.keys["1"]
        assert status(server, old) == 200
        server.reload("read the issuers again")
        assert until(lambda: status(server, old) == 401) and status(server, new) == 200
        # A fetch of a set without a key that can be used leaves the others.
        issuer.keys = {"3": {"kty": "oct", "kid": "3", "k": "c2VjcmV0"}}
        server.reload("read the issuers again")
        assert until(lambda: status(server, new) == 200 and "its key set: it has no key" in server.logged())


def an_issuer_is_down():
    with issuing() as issuer:
        issuer.stop()
        # A start does not need it.
        with users(f"acme:{CHEAP}") as file, serving_oidc(issuer, "--htpasswd", file, *METRICS) as (server, oidc):
            assert server.client(basic("acme:secret")).ask("GET", "/v2/").status == 200
            answer = asked(server, issuer.token())
            assert (answer.status, answer["Retry-After"]) == (503, "1"), (answer.status, answer.body)
            server.wait_for("cannot fetch the keys of an issuer issuer=ci why=.*(refused|connect)")
            issuer.begin()
            assert until(lambda: status(server, issuer.token()) == 200)
            issuer.stop()
            # Its keys are still known, also after a reload, which asks it again.
            for _ in range(3):
                assert status(server, issuer.token()) == 200
                server.reload("read the issuers again")
            # Nobody knows whether it has another key now.
            issuer.make_key("2")
            assert until(lambda: status(server, issuer.token("2")) == 503) and status(server, issuer.token()) == 200
            assert metric(server, 'registryd_oidc_fetches_total{issuer="ci",result="failed"}') >= "2"
            issuer.begin()
            assert until(lambda: status(server, issuer.token("2")) == 200)
            assert float(metric(server, 'registryd_oidc_refusals_total{issuer="ci",reason="no-keys"}')) >= 1


def an_issuer_is_slow():
    """One that sends a byte each second has ten seconds. Others do not wait for it, and the tokens that wait share a fetch."""
    def trickle(handler):
        handler.send_response(200)
        handler.send_header("Content-Length", "1000")
        handler.end_headers()
        with contextlib.suppress(OSError):
            for _ in range(60):
                handler.wfile.write(b" ")
                handler.wfile.flush()
                time.sleep(1)
    with issuing() as issuer, users(f"acme:{CHEAP}") as file, serving_oidc(issuer, "--htpasswd", file) as (server, _):
        issuer.faults["/"] = trickle
        text = issuer.token()
        with concurrent.futures.ThreadPoolExecutor(20) as pool:
            begun = time.time()
            waiting = [pool.submit(status, server, text) for _ in range(20)]
            assert until(lambda: issuer.count() == 1)
            assert server.client(basic("acme:secret")).ask("GET", "/v2/").status == 200 and server.client().ask("GET", "/livez").status == 200
            assert not all(one.done() for one in waiting)
            assert {one.result() for one in waiting} == {503} and time.time() - begun > 9
        server.wait_for("no complete response in 10 s")
        issuer.faults.clear()
        assert until(lambda: status(server, text) == 200)


def issuers_lie():
    faults = {
        "other": (lambda handler: reply(handler, 200, {"issuer": "https://other\n", "jwks_uri": "http://127.0.0.1:1/keys"}), "of another issuer"),
        "slash": (lambda handler: reply(handler, 200, {"issuer": f"{issuer.url}/slash/", "jwks_uri": f"{issuer.url}/slash/keys"}), "of another issuer"),
        "outside": (lambda handler: reply(handler, 200, {"issuer": f"{issuer.url}/outside", "jwks_uri": "http://10.0.0.1/keys"}), "http is for loopback"),
        "file": (lambda handler: reply(handler, 200, {"issuer": f"{issuer.url}/file", "jwks_uri": "file:///etc/passwd"}), "the URL of its key set"),
        "huge": (lambda handler: reply(handler, 200, b" " * 2_000_000), "longer than 262144 bytes"),
        "moved": (lambda handler: reply(handler, 302, b"", {"Location": f"{issuer.url}/.well-known/openid-configuration"}), "returns 302"),
        "broken": (lambda handler: reply(handler, 500, b"<html>"), "returns 500"),
        "page": (lambda handler: reply(handler, 200, b"<html>"), "no discovery document"),
        "deep": (lambda handler: reply(handler, 200, b"[" * 200_000), "no discovery document"),
        "cut": (lambda handler: handler.wfile.write(b"HTTP/1.1 200 OK\r\nContent-Length: 100\r\n\r\n{"), "its response was cut"),
        "silent": (lambda handler: None, "127.0.0.1"),
        "noise": (lambda handler: handler.wfile.write(b"\0" * 1000), "127.0.0.1"),
    }
    sets = {"keyless": b'{"keys": []}', "secret": b'{"keys": [{"kty": "oct", "kid": "1", "k": "c2VjcmV0", "alg": "HS256"}]}', "text": b"keys", "long": b" " * 300_000}
    with issuing() as issuer:
        for name, (fault, _) in faults.items():
            issuer.faults[f"/{name}/"] = fault
        for name, text in sets.items():
            issuer.faults[f"/{name}/keys"] = lambda handler, text=text: reply(handler, 200, text)
        names = [*faults, *sets]
        lines = [line for name in names for line in (f"issuer {name} {issuer.url}/{name} {AUDIENCE}", f"allow {name} read,write acme sub=*main")]
        with users(f"issuer ci {issuer.url} {AUDIENCE}", ALLOW, *lines) as file, serving("--oidc", file) as server:
            for name in names:
                assert status(server, issuer.token(iss=f"{issuer.url}/{name}"), name=name) == 503, name
                why = faults[name][1] if name in faults else ""
                server.wait_for(f"cannot fetch the keys of an issuer issuer={name} why=.*{re.escape(why)}")
                # A secret of the set signs nothing.
                hs256 = issuer.token(iss=f"{issuer.url}/{name}", head={"alg": "HS256", "kid": "1"},
                                     sign=lambda path, algorithm, message: hmac.new(b"secret", message, hashlib.sha256).digest())
                assert status(server, hs256, name=name) in (401, 503), name
            assert status(server, issuer.token()) == 200
            assert max(len(line) for line in server.logged().splitlines()) < 1000


def a_crowd_of_unknown_keys_asks_seldom():
    """Of 100 clients at once with a key of their own, all are refused, and the issuer is asked once in 5 s. Good tokens are accepted meanwhile."""
    with issuing() as issuer, serving_oidc(issuer, *METRICS) as (server, _):
        good = issuer.token()
        head, body, signature = good.split(".")
        texts = [issuer.token(f"none-{number}", "ES256", key="1") for number in range(100)]
        assert status(server, good) == 200
        begun = time.time()
        with concurrent.futures.ThreadPoolExecutor(100) as pool:
            found = list(pool.map(lambda text: status(server, text), texts * 3))
            assert set(found) == {401}, set(found)
            assert all(one == 200 for one in pool.map(lambda _: status(server, good), range(20)))
        most = 2 * (2 + (time.time() - begun) // 5)
        assert issuer.count() <= most, (issuer.count(), most)
        assert metric(server, 'registryd_oidc_refusals_total{issuer="ci",reason="unknown-key"}') == "300"


def a_crowd_that_comes_first_asks_once():
    with issuing() as issuer, serving_oidc(issuer) as (server, _):
        issuer.faults["/.well-known"] = lambda handler: (time.sleep(1), reply(handler, 200, {"issuer": issuer.url, "jwks_uri": f"{issuer.url}/keys"}))
        text = issuer.token()
        with concurrent.futures.ThreadPoolExecutor(50) as pool:
            assert set(pool.map(lambda _: status(server, text), range(50))) == {200}
        assert issuer.count() == 2, issuer.asked


def the_file_is_read_again():
    with issuing() as issuer, serving_oidc(issuer) as (server, file):
        text, first = issuer.token(), f"issuer ci {issuer.url} {AUDIENCE}"
        client = server.client(login(text))
        assert client.ask("POST", "/v2/acme/app/blobs/uploads/").status == 202
        write(file, first, ALLOW.replace("read,write", "read"))
        server.reload("read the issuers again")
        assert client.ask("POST", "/v2/acme/app/blobs/uploads/").status == 403
        # A file with an error changes nothing.
        for line, why in (("allow ci write acme", "line 3: every token of the issuer would have these rights"), ("allow x write acme a=b", "line 3: no line above has"),
                          ("issuer x http://example.com a", "line 3: the URL of issuer x: http is for loopback addresses only")):
            write(file, first, ALLOW, line)
            server.reload(re.escape(f"cannot read the issuers: {file}: {why}") + ".*kept the issuers that were read before")
            assert client.ask("POST", "/v2/acme/app/blobs/uploads/").status == 403 and client.ask("GET", "/v2/").status == 200
        write(file, first)
        server.reload("read the issuers again")
        assert client.ask("GET", "/v2/").status == 401
        write(file, first, "allow ci read acme any-token")
        server.reload("read the issuers again")
        assert "a rule of the file of --oidc gives rights to every token issuer=ci line=2" in server.logged()
        assert client.ask("GET", "/v2/").status == 200 and status(server, issuer.token(repository=None)) == 200
        # Another audience, another name, and none.
        write(file, f"issuer ci {issuer.url} other", ALLOW)
        server.reload("read the issuers again")
        assert client.ask("GET", "/v2/").status == 401
        write(file, f"issuer other {issuer.url} {AUDIENCE}", ALLOW.replace("ci", "other"))
        server.reload("read the issuers again")
        assert client.ask("GET", "/v2/").status == 401 and status(server, text, name="other") == 200
        write(file)
        server.reload("read the issuers again")
        assert status(server, text, name="other") == 401


def tls_is_checked():
    with tempfile.TemporaryDirectory() as top:
        certificates(top)
        with issuing(tls=top) as issuer:
            with serving_oidc(issuer, env={**os.environ, "SSL_CERT_FILE": f"{top}/ca.crt"}) as (server, _):
                assert status(server, issuer.token()) == 200
                # Its key set has TLS, too.
                plain = Issuer()
                issuer.faults["/.well-known"] = lambda handler: reply(handler, 200, {"issuer": issuer.url, "jwks_uri": f"{plain.url}/keys"})
                server.reload("read the issuers again")
                assert until(lambda: status(server, issuer.token()) == 200 and "no TLS, although the issuer has it" in server.logged())
                assert not plain.asked
                plain.stop()
            with serving_oidc(issuer) as (server, _):
                assert status(server, issuer.token()) == 503
                server.wait_for("cannot fetch the keys of an issuer issuer=ci why=.*certificate")
            empty = f"{top}/empty"
            open(empty, "w").close()
            with users(f"issuer ci {issuer.url} {AUDIENCE}") as file:
                check(ended("--oidc", file, env={**os.environ, "SSL_CERT_FILE": empty, "SSL_CERT_DIR": top}), 1, "certificates of the system's authorities")


def a_start_names_the_line():
    for line, why in (("issuer ci", "not `issuer NAME URL AUDIENCE`"), ("issuer ci http://example.com a", "http is for loopback addresses only"),
                      ("allow ci read acme", "every token of the issuer"), ("allow ci read acme a=b", "no line above has the issuer `ci`")):
        with users("# issuers", line) as file:
            check(ended("--oidc", file), 1, f"cannot read the issuers: {file}: line 2: ", why)
    check(ended("--oidc", "/none"), 1, "cannot read the issuers: /none: No such file")
    for line in (f"oidc+ci:{CHEAP}", "oidc+:!"):
        with users(f"acme:{CHEAP}", line) as file:
            check(ended("--htpasswd", file), 1, f"{file}: line 2: names that begin with `oidc+` are those of the file of --oidc")
    with users(f"acme:{CHEAP}") as file, users("oidc+ci read acme") as rights:
        check(ended("--htpasswd", file, "--rights", rights), 1, "names that begin with `oidc+`")
    # Without the option, such a user is nobody, and no password is hashed for one.
    with users(f"acme:{CHEAP}") as file, serving("--htpasswd", file) as server:
        assert server.client(login("x")).ask("GET", "/v2/").status == 401 and server.client(basic("acme:secret")).ask("GET", "/v2/").status == 200


def it_goes_together_with_others():
    """With users, everybody's rights, robots' challenge, and tokens that list rights."""
    with issuing() as issuer, users(f"issuer ci {issuer.url} {AUDIENCE}", ALLOW) as oidc, users(f"acme:{CHEAP}") as file:
        with users("acme read,write,delete acme", "* read acme/public") as rights:
            with serving_tokens("--oidc", oidc, "--htpasswd", file, "--rights", rights) as (server, key):
                put_image(server.client(basic("acme:secret")), "acme/public")
                put_image(server.client(login(issuer.token())), "acme/app")
                listed = token(key, words=claims([entry("acme/app", "pull")]))
                for client in (server.client(bearer(listed)), server.client(bearer(issuer.token())), server.client(login(issuer.token()))):
                    assert client.ask("GET", "/v2/acme/app/manifests/v1").status == client.ask("GET", "/v2/acme/public/manifests/v1").status == 200
                assert server.client(bearer(listed)).ask("DELETE", "/v2/acme/app/manifests/v1").status == 401
                assert server.client(login(listed)).ask("GET", "/v2/").status == 401
                # Neither issuer signs for the other.
                forged = token(key, words={**claims([entry("acme/app", "*")]), "iss": issuer.url, "aud": AUDIENCE}, head={"alg": "RS256", "kid": "1"})
                for headers in (bearer(forged), login(forged)):
                    assert server.client(headers).ask("GET", "/v2/").status == 401
                other = issuer.token(iss="login.test", aud="registry.test", access=[entry("acme/app", "*")])
                assert server.client(bearer(other)).ask("GET", "/v2/").status == 401
                assert server.client(login("x")).ask("GET", "/v2/")["WWW-Authenticate"].startswith("Bearer ")


def the_page_has_a_file():
    text = blocks("docs/USERS.md", "Tokens of build services", "text")[0]
    with tempfile.TemporaryDirectory() as top:
        certificates(top)
        with users(*text.splitlines()) as file, serving("--oidc", file, env={**os.environ, "SSL_CERT_FILE": f"{top}/ca.crt"}) as server:
            assert server.client().ask("GET", "/v2/").status == 401


def clients_push_without_a_secret():
    with issuing() as issuer, serving_oidc(issuer) as (server, _), tempfile.TemporaryDirectory() as top:
        issuer.make_key("rsa", "RS256")
        image(f"{top}/image", [1000], 1)
        text, at, plain = issuer.token("rsa"), f"docker://{server.address}/acme/app", "--dest-tls-verify=false"
        skopeo("login", "--tls-verify=false", "--authfile", f"{top}/auth", "-u", "oidc+ci", "-p", text, server.address)
        skopeo("copy", plain, "--authfile", f"{top}/auth", f"oci:{top}/image:latest", f"{at}:v1")
        skopeo("copy", "--src-tls-verify=false", "--src-creds", f"oidc+ci:{text}", f"{at}:v1", f"oci:{top}/back:latest")
        same_blobs(f"{top}/image", f"{top}/back")
        run("curl", "-sf", "-u", f"oidc+ci:{text}", f"http://{server.address}/v2/acme/app/tags/list")
        run("curl", "-sf", "-H", f"Authorization: Bearer {text}", f"http://{server.address}/v2/acme/app/tags/list")
        for wrong in (issuer.token("rsa", aud="other"), issuer.token("rsa", repository="org/x"), text[:-8] + "AAAAAAAA"):
            fails(lambda: skopeo("login", "--tls-verify=false", "--authfile", f"{top}/none", "-u", "oidc+ci", "-p", wrong, server.address))
            fails(lambda: skopeo("copy", plain, "--dest-creds", f"oidc+ci:{wrong}", f"oci:{top}/image:latest", f"{at}:v2"))
        fails(lambda: skopeo("copy", plain, "--dest-creds", f"oidc+ci:{text}", f"oci:{top}/image:latest", f"docker://{server.address}/acme/other:v1"))
        if has_podman("oidc"):
            name = f"{server.address}/acme/app:v1"
            podman(top, "pull", "--tls-verify=false", "--creds", f"oidc+ci:{text}", name)
            podman(top, "push", "--tls-verify=false", "--creds", f"oidc+ci:{text}", name, f"{server.address}/acme/app/podman:v1")


def docker_logs_in():
    with issuing() as issuer, serving_oidc(issuer) as (server, _), tempfile.TemporaryDirectory() as top:
        docker = docker_with_a_file(top, "oidc")
        if docker is None:
            return
        try:
            own = f"{server.address}/acme/app:v1"
            login = lambda words: run(*docker.words, "login", "-u", "oidc+ci", "-p", words, server.address)
            fails(lambda: login(issuer.token(repository="org/x")))
            login(issuer.token(exp=int(time.time()) + 3600))
            docker.push(own)
            docker.forget()
            assert docker.pull(own) == {"file": b"content"}
            fails(lambda: run(*docker.words, "push", "-q", f"{server.address}/other/app:v1"))
        finally:
            docker.end()


TESTS = [a_token_of_each_algorithm_pushes, claims_give_rights, bad_tokens_are_refused, a_token_ends, keys_rotate, an_issuer_is_down, an_issuer_is_slow,
         issuers_lie, a_crowd_of_unknown_keys_asks_seldom, a_crowd_that_comes_first_asks_once, the_file_is_read_again, tls_is_checked,
         a_start_names_the_line, it_goes_together_with_others, the_page_has_a_file, clients_push_without_a_secret, docker_logs_in]


def main():
    names = sys.argv[1:]
    tests = [test for test in TESTS if not names or test.__name__ in names]
    wrong = sum(played(test) for test in tests)
    print(f"oidc: {len(tests) - wrong} passed, {wrong} failed")
    sys.exit(wrong > 0)


if __name__ == "__main__":
    main()
