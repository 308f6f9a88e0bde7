#!/usr/bin/env python3
"""Tests TLS with certificates made by openssl: curl, skopeo, podman and Python as clients, certificates that are read again, pairs
that cannot be used, and handshakes that never end."""
import contextlib, http.client, os, shutil, ssl, subprocess, sys, tempfile, time

from hardships import PATCH, played
from images import image, same_blobs, skopeo
from limits import is_closed
from rights import has_podman, podman
from server import serving, sha256
from statuses import check, ended

READ_AGAIN = "read the certificate and its key again"
KEYS = {"rsa": ["rsa:2048"], "p256": ["ec", "-pkeyopt", "ec_paramgen_curve:P-256"], "p384": ["ec", "-pkeyopt", "ec_paramgen_curve:P-384"],
        "ed25519": ["ed25519"]}


def certificate(folder, name, kind):
    """Makes a certificate for 127.0.0.1 that signs itself, and its key."""
    files = ["-keyout", f"{folder}/{name}.key", "-out", f"{folder}/{name}.crt"]
    words = ["-newkey", *KEYS[kind], "-nodes", "-days", "2", "-subj", f"/CN={name}", "-addext", "subjectAltName=IP:127.0.0.1"]
    subprocess.run(["openssl", "req", "-x509", *words, *files], check=True, stderr=subprocess.DEVNULL)


@contextlib.contextmanager
def serving_tls(*words, kind="p256"):
    """Starts a registry with a certificate. Returns it and the folder with its files `one.crt` and `one.key`."""
    with tempfile.TemporaryDirectory() as folder:
        certificate(folder, "one", kind)
        with serving("--tls-cert", f"{folder}/one.crt", "--tls-key", f"{folder}/one.key", *words) as server:
            yield server, folder


def client(server, root):
    """Returns a connection to a server that has this certificate."""
    return http.client.HTTPSConnection(server.address, timeout=60, context=ssl.create_default_context(cafile=root))


def ask(connection, method, path, body=None, headers=()):
    connection.request(method, path, body, dict(headers))
    response = connection.getresponse()
    return response.status, response.read()


def curl(server, *words):
    """Returns curl's exit status and the status of the response."""
    words = ["curl", "-s", "-o", "/dev/null", "-w", "%{http_code}", *words, f"https://{server.address}/v2/"]
    done = subprocess.run(words, stdout=subprocess.PIPE, text=True, timeout=60)
    return done.returncode, done.stdout


def each_type_of_key_is_served():
    for kind in ("rsa", "p384", "ed25519"):
        with serving_tls(kind=kind) as (server, folder):
            assert ask(client(server, f"{folder}/one.crt"), "GET", "/v2/")[0] == 200, kind
            assert server.end() == 0


def curl_is_served():
    with serving_tls() as (server, folder):
        for version in (["--tls-max", "1.2"], ["--tlsv1.3"]):
            assert curl(server, "--cacert", f"{folder}/one.crt", *version) == (0, "200"), version
        assert curl(server)[0] == 60
        with server.socket() as line:
            line.sendall(b"GET /v2/ HTTP/1.1\r\nHost: a\r\n\r\n")
            assert not line.recv(1000).startswith(b"HTTP/")
        server.wait_for("no TLS handshake")


def content_is_the_same():
    data = os.urandom(150_000)
    with serving_tls() as (server, folder):
        line = client(server, f"{folder}/one.crt")
        assert ask(line, "POST", f"/v2/acme/one/blobs/uploads/?digest={sha256(data)}", data, PATCH)[0] == 201
        assert ask(line, "GET", f"/v2/acme/one/blobs/{sha256(data)}") == (200, data)


def skopeo_and_podman_are_served():
    with serving_tls() as (server, folder), tempfile.TemporaryDirectory() as top:
        os.mkdir(f"{top}/certs")
        shutil.copy(f"{folder}/one.crt", f"{top}/certs/ca.crt")
        image(f"{top}/image", [1000, 2000], 1)
        at = f"docker://{server.address}/acme/tls"
        skopeo("copy", "--dest-cert-dir", f"{top}/certs", f"oci:{top}/image:latest", f"{at}:v1")
        skopeo("copy", "--src-cert-dir", f"{top}/certs", f"{at}:v1", f"oci:{top}/back:latest")
        same_blobs(f"{top}/image", f"{top}/back")
        if not has_podman("tls"):
            return
        name = f"{server.address}/acme/tls:v1"
        podman(top, "pull", "--cert-dir", f"{top}/certs", name)
        podman(top, "push", "--cert-dir", f"{top}/certs", name, f"docker://{server.address}/acme/podman:v1")
        assert ask(client(server, f"{folder}/one.crt"), "GET", "/v2/acme/podman/tags/list")[1].find(b"v1") > 0


def a_second_certificate_is_read():
    with serving_tls() as (server, folder):
        old = client(server, f"{folder}/one.crt")
        assert ask(old, "GET", "/v2/")[0] == 200
        shutil.copy(f"{folder}/one.crt", f"{folder}/first.crt")
        certificate(folder, "one", "rsa")
        server.reload(READ_AGAIN)
        assert ask(client(server, f"{folder}/one.crt"), "GET", "/v2/")[0] == 200
        # The open connection goes on. A new one has the new certificate.
        assert ask(old, "GET", "/v2/")[0] == 200
        with contextlib.suppress(ssl.SSLCertVerificationError):
            ask(client(server, f"{folder}/first.crt"), "GET", "/v2/")
            raise AssertionError("the old certificate is served")


def a_broken_pair_keeps_the_old_one():
    with serving_tls() as (server, folder):
        shutil.copy(f"{folder}/one.crt", f"{folder}/first.crt")
        certificate(folder, "two", "p256")
        for name, text, why in (("one.crt", "", "no certificate in PEM"), ("one.key", "", "no unencrypted private key in PEM"),
                                ("one.key", open(f"{folder}/two.key").read(), "it is of another key")):
            with open(f"{folder}/{name}") as file:
                good = file.read()
            with open(f"{folder}/{name}", "w") as file:
                file.write(text)
            server.reload(f"{why}.*: kept the certificate and its key")
            assert ask(client(server, f"{folder}/first.crt"), "GET", "/v2/")[0] == 200
            with open(f"{folder}/{name}", "w") as file:
                file.write(good)
        server.reload(READ_AGAIN)
        assert "PRIVATE" not in server.logged()


def a_start_names_the_file():
    with tempfile.TemporaryDirectory() as folder:
        certificate(folder, "one", "p256")
        certificate(folder, "two", "rsa")
        with open(f"{folder}/empty", "w"):
            pass
        for pair, status, texts in ((("one.crt", "two.key"), 1, ("one.crt", "it is of another key", "two.key")),
                                    (("empty", "one.key"), 1, ("empty", "no certificate in PEM")),
                                    (("one.crt", "one.crt"), 1, ("one.crt", "no unencrypted private key in PEM")),
                                    (("none.crt", "one.key"), 1, ("none.crt", "No such file"))):
            check(ended("--tls-cert", f"{folder}/{pair[0]}", "--tls-key", f"{folder}/{pair[1]}"), status, *texts)
        check(ended("--tls-cert", f"{folder}/one.crt"), 2, "--tls-key")


def a_handshake_has_its_time():
    with serving_tls("--head-s", "1") as (server, folder):
        silent, slow = server.socket(), server.socket()
        slow.sendall(b"\x16\x03\x01")
        # Neither holds up another client.
        assert ask(client(server, f"{folder}/one.crt"), "GET", "/v2/")[0] == 200
        assert is_closed(silent, 5) and is_closed(slow, 5)
        # The time of a head begins anew after the handshake.
        line = client(server, f"{folder}/one.crt")
        line.connect()
        time.sleep(1.5)
        assert ask(line, "GET", "/v2/")[0] == 200


def a_handshake_is_a_connection():
    with serving_tls("--connections", "2") as (server, folder):
        lines = [server.socket() for _ in range(2)]
        time.sleep(0.2)
        assert ask(client(server, f"{folder}/one.crt"), "GET", "/v2/")[0] == 200
        assert is_closed(lines[0], 5)


def an_end_breaks_handshakes_off():
    with serving_tls() as (server, _):
        line = server.socket()
        time.sleep(0.1)
        begun = time.time()
        assert server.end() == 0 and time.time() - begun < 20
        line.close()


TESTS = [each_type_of_key_is_served, curl_is_served, content_is_the_same, skopeo_and_podman_are_served, a_second_certificate_is_read,
         a_broken_pair_keeps_the_old_one, a_start_names_the_file, a_handshake_has_its_time, a_handshake_is_a_connection,
         an_end_breaks_handshakes_off]


def main():
    names = sys.argv[1:]
    tests = [test for test in TESTS if not names or test.__name__ in names]
    wrong = sum(played(test) for test in tests)
    print(f"tls: {len(tests) - wrong} passed, {wrong} failed")
    sys.exit(wrong > 0)


if __name__ == "__main__":
    main()
