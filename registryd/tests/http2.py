#!/usr/bin/env python3
"""Tests clients that speak HTTP/2. The registry itself speaks HTTP/1.1: clients that offer both get that, and those that insist on HTTP/2
are disconnected. Behind HAProxy, which the commands of USERS start, curl pushes and pulls by HTTP/2, a hundred contents over one connection."""
import contextlib, os, shutil, signal, ssl, subprocess, tempfile

from documented import Shell, blocks
from hardships import PATCH
from images import image, same_blobs, skopeo
from playing import play
from server import MANIFEST, TOP, free_port, manifest_of, serving, sha256
from tls import certificate, serving_tls

PREFACE = b"PRI * HTTP/2.0\r\n\r\nSM\r\n\r\n"
SMALL = [b"%d" % number * 1000 for number in range(100)]


def curl(*words, **options):
    """Returns what curl prints."""
    done = subprocess.run(["curl", "--silent", "--show-error", *words], stdout=subprocess.PIPE, stderr=subprocess.PIPE, timeout=60, **options)
    assert done.returncode == 0, f"curl {' '.join(words)}: {done.returncode}: {done.stderr.decode()}"
    return done.stdout.decode()


def version_of(*words):
    """Returns the status of a response, and the version of HTTP with which it came."""
    return curl("--output", "/dev/null", "--write-out", "%{http_code} %{http_version}", *words)


def selected(server, root, offered):
    """Returns the protocol that a handshake selects."""
    context = ssl.create_default_context(cafile=root)
    context.set_alpn_protocols(offered)
    with server.socket() as line, context.wrap_socket(line, server_hostname="127.0.0.1") as secure:
        return secure.selected_alpn_protocol()


def handshakes_select_http_1():
    with serving_tls() as (server, folder):
        root = f"{folder}/one.crt"
        assert selected(server, root, ["h2", "http/1.1"]) == "http/1.1"
        assert version_of("--http2", "--cacert", root, f"https://{server.address}/v2/") == "200 1.1"
        with contextlib.suppress(ssl.SSLError, ConnectionResetError):
            raise AssertionError(f"a handshake for HTTP/2 alone selected {selected(server, root, ['h2'])}")
        assert server.end() == 0


def plain_text_stays_http_1():
    with serving() as server:
        # curl asks for an upgrade, which a server may ignore (RFC 9110, 7.8).
        assert version_of("--http2", f"http://{server.address}/v2/") == "200 1.1"
        with server.socket() as line:
            line.sendall(PREFACE)
            line.settimeout(10)
            received = b"".join(iter(lambda: line.recv(1000), b""))
            assert not received or received.startswith(b"HTTP/1.1 400"), received
        assert version_of(f"http://{server.address}/v2/") == "200 1.1"
        assert server.end() == 0


@contextlib.contextmanager
def behind_haproxy(folder):
    """Runs a registry behind HAProxy, by the commands of USERS. Gives the registry, and the proxy's address."""
    certificate(folder, "registry", "p256")
    address = f"127.0.0.1:{free_port()}"
    words = {"/usr/share/doc/registryd/examples/": f"{os.path.dirname(TOP)}/docs/", "/etc/registryd/registry.": f"{folder}/registry.",
             "127.0.0.1:5443": address}
    shell, (copy, pem, start, ask) = Shell(folder, words), blocks("docs/USERS.md", "HTTP/2")[0].splitlines()
    with serving() as server:
        shell.type(f"{copy}\n{pem}")
        with open(f"{folder}/haproxy-http2.cfg") as file:
            text = file.read()
        for old, new in (("*:5443", address), ("127.0.0.1:5000", server.address)):
            assert text.count(old) == 1, old
            text = text.replace(old, new)
        with open(f"{folder}/haproxy-http2.cfg", "w") as file:
            file.write(text)
        shell.type(start)
        try:
            shell.type(ask)
            yield server, address
        finally:
            with open(f"{folder}/haproxy.pid") as file:
                os.kill(int(file.read()), signal.SIGTERM)


def pushed_by_curl(folder, http2, at):
    """Pushes one content in one request, and one of which the length is not sent. Returns them."""
    whole, streamed = os.urandom(3_000_000), os.urandom(1_000_000)
    for name, data in (("whole", whole), ("streamed", streamed)):
        with open(f"{folder}/{name}", "wb") as file:
            file.write(data)
    kind = ["--header", f"Content-Type: {PATCH['Content-Type']}"]
    assert version_of(*http2, *kind, "--data-binary", f"@{folder}/whole", f"{at}/blobs/uploads/?digest={sha256(whole)}") == "201 2"
    place = curl(*http2, "--request", "POST", "--output", "/dev/null", "--write-out", "%header{location}", f"{at}/blobs/uploads/")
    to = at.split("/v2/")[0] + place
    with open(f"{folder}/streamed", "rb") as file:
        written = curl(*http2, *kind, "--request", "PATCH", "--upload-file", "-", "--write-out", "%{http_code} %{http_version}", to, stdin=file)
    assert written == "202 2", written
    assert version_of(*http2, "--request", "PUT", f"{to}?digest={sha256(streamed)}") == "201 2"
    return [whole, streamed]


def pulled_over_one_connection(folder, http2, at, contents):
    """Pulls contents at once, and checks that curl opened one connection for all of them."""
    with open(f"{folder}/list", "w") as file:
        for number, data in enumerate(contents):
            file.write(f'url = "{at}/blobs/{sha256(data)}"\noutput = "{folder}/back-{number}"\n')
    # Without the wait, curl opens connections until the first one has selected a protocol.
    words = ["--parallel", "--parallel-max", "100", "--no-parallel-immediate", "--write-out", "%{http_version} %{num_connects}\n"]
    lines = curl(*http2, *words, "--config", f"{folder}/list").split("\n")[:-1]
    assert {line.split()[0] for line in lines} == {"2"} and len(lines) == len(contents), lines
    assert sum(int(line.split()[1]) for line in lines) == 1, lines
    for number, data in enumerate(contents):
        with open(f"{folder}/back-{number}", "rb") as file:
            assert file.read() == data, number


def curl_speaks_http_2_with_a_proxy():
    with tempfile.TemporaryDirectory() as folder, behind_haproxy(folder) as (server, address):
        http2, at = ["--http2", "--cacert", f"{folder}/registry.crt"], f"https://{address}/v2/acme/one"
        contents = pushed_by_curl(folder, http2, at) + SMALL
        client = server.client()
        for data in [b"{}", *SMALL]:
            assert client.ask("POST", f"/v2/acme/one/blobs/uploads/?digest={sha256(data)}", data, PATCH).status == 201
        manifest = manifest_of(b"{}", SMALL)
        with open(f"{folder}/manifest", "wb") as file:
            file.write(manifest)
        words = ["--request", "PUT", "--header", f"Content-Type: {MANIFEST}", "--data-binary", f"@{folder}/manifest"]
        assert version_of(*http2, *words, f"{at}/manifests/v1") == "201 2"
        assert curl(*http2, f"{at}/manifests/v1").encode() == manifest
        assert version_of(*http2, f"{at}/manifests/v2") == "404 2"
        pulled_over_one_connection(folder, http2, at, contents)


def skopeo_speaks_http_1_with_a_proxy():
    with tempfile.TemporaryDirectory() as folder, behind_haproxy(folder) as (_, address):
        os.mkdir(f"{folder}/certs")
        shutil.copy(f"{folder}/registry.crt", f"{folder}/certs/ca.crt")
        image(f"{folder}/image", [1000, 2_000_000], 1)
        skopeo("copy", "--dest-cert-dir", f"{folder}/certs", f"oci:{folder}/image:latest", f"docker://{address}/acme/two:v1")
        skopeo("copy", "--src-cert-dir", f"{folder}/certs", f"docker://{address}/acme/two:v1", f"oci:{folder}/back:latest")
        same_blobs(f"{folder}/image", f"{folder}/back")


TESTS = [handshakes_select_http_1, plain_text_stays_http_1, curl_speaks_http_2_with_a_proxy, skopeo_speaks_http_1_with_a_proxy]


if __name__ == "__main__":
    play("HTTP/2", TESTS)
