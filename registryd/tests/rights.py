#!/usr/bin/env python3
"""Tests users and their rights: files that are read again on SIGHUP, each endpoint with and without each right, and skopeo and podman
with and without a password."""
import contextlib, os, shutil, sys, tempfile, time

from clients import Podman, run
from hardships import PATCH, played
from images import image, same_blobs, skopeo
from limits import CHEAP, basic, users
from server import MANIFEST, manifest_of, serving, sha256
from statuses import check, ended

# By `openssl passwd -6 -salt saltsalt changed`.
CHANGED = "$6$saltsalt$xDrMCoCSsBWt0sUUEhib9k4XyuzorE/Cy.p8vW2kPuFL11C2vssxWtqahFC17fGDdU7D93VtnRfRvymd7unSL/"
READ_AGAIN = "read the users again"


def write(path, *lines):
    with open(path, "w") as file:
        file.write("".join(line + "\n" for line in lines))


def status(server, user, method="GET", path="/v2/", body=None, headers=(), password="secret"):
    """Returns the status of a request of a user, or of nobody."""
    words = {**(basic(f"{user}:{password}") if user else {}), **dict(headers)}
    return server.client(words).ask(method, path, body).status


def a_removed_user_is_refused():
    with users(f"acme:{CHEAP}", f"other:{CHEAP}") as file, serving("--htpasswd", file) as server:
        client = server.client(basic("other:secret"))
        assert client.ask("GET", "/v2/").status == 200 and status(server, "third") == 401
        write(file, f"acme:{CHEAP}", f"third:{CHEAP}")
        server.reload(READ_AGAIN)
        # The password was accepted before, and the connection is the same.
        assert client.ask("GET", "/v2/").status == 401
        assert (status(server, "acme"), status(server, "third")) == (200, 200)


def a_changed_password_is_another():
    with users(f"acme:{CHEAP}") as file, serving("--htpasswd", file) as server:
        assert status(server, "acme") == 200
        write(file, f"acme:{CHANGED}")
        server.reload(READ_AGAIN)
        assert (status(server, "acme"), status(server, "acme", password="changed")) == (401, 200)


def a_broken_file_keeps_the_users():
    with users(f"acme:{CHEAP}", f"prometheus:{CHEAP}") as file:
        with serving("--htpasswd", file, "--metrics-user", "prometheus") as server:
            unsupported = ["acme:$apr1$Zk7Yq2xT$DZ7UqqZQZkSc1.xlOGv7u."]
            for lines, why in ((["# users", "acme"], "line 2: not USER:HASH"), (unsupported, "line 1: unsupported format"),
                               ([f"acme:{CHEAP}"], "cannot find the user of --metrics-user: prometheus")):
                write(file, *lines)
                server.reload(f"{why}.*: kept the users")
                assert (status(server, "acme"), status(server, "prometheus", path="/metrics")) == (200, 200)
            os.remove(file)
            server.reload(f"{file}: No such file.*: kept the users")
            assert status(server, "acme") == 200
            write(file)
        assert "$apr1$" not in server.logged()


def open_requests_go_on():
    data = b"x" * 1000
    with users(f"acme:{CHEAP}", f"other:{CHEAP}") as file, serving("--htpasswd", file) as server:
        line = server.socket()
        words = basic("acme:secret")["Authorization"]
        head = f"POST /v2/acme/one/blobs/uploads/?digest={sha256(data)} HTTP/1.1\r\nHost: a\r\nAuthorization: {words}\r\n"
        line.sendall(f"{head}Content-Type: {PATCH['Content-Type']}\r\nContent-Length: {len(data)}\r\n\r\n".encode() + data[:500])
        time.sleep(0.2)
        write(file, f"other:{CHEAP}")
        server.reload(READ_AGAIN)
        line.sendall(data[500:])
        assert line.recv(1000).startswith(b"HTTP/1.1 201")
        line.close()
        assert status(server, "acme") == 401


def a_reload_without_files_is_no_end():
    with serving() as server:
        server.reload("no file to read again")
        assert server.client().ask("GET", "/v2/").status == 200


NAMES = ("acme", "reader", "writer", "deleter", "low", "other")
RIGHTS = """# USER RIGHTS PREFIX
acme     read,write,delete  acme
reader   read               acme/app
writer   write              acme/app
deleter  delete             acme/app
low      read,write         acme/app/low
other    read,write,delete  other
*        read               acme/public
"""


@contextlib.contextmanager
def serving_rights(*words, rights=RIGHTS):
    """Starts a registry with users and rights. Returns it and the file of the rights."""
    with users(*(f"{name}:{CHEAP}" for name in NAMES)) as file, users(*rights.splitlines()) as rights:
        with serving("--htpasswd", file, "--rights", rights, *words) as server:
            yield server, rights


def put_image(client, repo):
    """Pushes an image with one layer, and returns its manifest, its digest, and the layer's."""
    for data in (b"{}", b"layer"):
        assert client.ask("POST", f"/v2/{repo}/blobs/uploads/?digest={sha256(data)}", data, PATCH).status == 201
    manifest = manifest_of(b"{}", [b"layer"])
    answer = client.ask("PUT", f"/v2/{repo}/manifests/v1", manifest, {"Content-Type": MANIFEST})
    assert answer.status == 201, answer.body
    return manifest, sha256(manifest), sha256(b"layer")


def a_pipe_is_read_by_nobody():
    """The open of a pipe would wait for a writer, so that no later reload would end."""
    with users(f"acme:{CHEAP}") as file, users("acme read,write acme") as rights, serving("--htpasswd", file, "--rights", rights) as server:
        for name, path in (("users", file), ("rights", rights)):
            os.rename(path, f"{path}.old")
            os.mkfifo(path)
            server.reload(f"cannot read the {name}: {path}: not a regular file: kept the {name} that were read before")
            assert status(server, "acme") == 200
            os.rename(f"{path}.old", path)
            server.reload(f"read the {name} again")
            assert status(server, "acme") == 200


def each_request_needs_its_right():
    with serving_rights() as (server, _):
        manifest, _, layer = put_image(server.client(basic("acme:secret")), "acme/app")
        client = server.client(basic("acme:secret"))
        upload = client.ask("POST", "/v2/acme/app/blobs/uploads/")["Location"]
        at = "/v2/acme/app"
        # The requests that the reader, the writer and the deleter may make, and the status of a request that is allowed.
        requests = [
            ("reader", "GET", f"{at}/tags/list", 200), ("reader", "GET", f"{at}/manifests/v1", 200),
            ("reader", "HEAD", f"{at}/manifests/v1", 200), ("reader", "GET", f"{at}/blobs/{layer}", 200),
            ("reader", "HEAD", f"{at}/blobs/{layer}", 200),
            ("writer", "POST", f"{at}/blobs/uploads/", 202), ("writer", "GET", upload, 204), ("writer", "PATCH", upload, 202),
            ("writer", "PUT", f"{upload}?digest={sha256(b'x')}", 201), ("writer", "DELETE", upload, 404),
            ("writer", "PUT", f"{at}/manifests/v2", 201),
            ("deleter", "DELETE", f"{at}/manifests/v2", 202), ("deleter", "DELETE", f"{at}/blobs/{sha256(b'x')}", 202),
        ]
        content = {"PATCH": (b"x", PATCH), "PUT": (b"", ())}
        for owner, method, path, expected in requests:
            body, headers = content.get(method, (None, ()))
            if path.endswith("v2") and method == "PUT":
                body, headers = manifest, {"Content-Type": MANIFEST}
            for user in ("reader", "writer", "deleter", "low", "other"):
                if user != owner:
                    assert status(server, user, method, path, body, headers) == 403, (user, method, path)
            assert status(server, None, method, path, body, headers) == 401, (method, path)
            assert status(server, owner, method, path, body, headers) == expected, (owner, method, path)
        answer = server.client(basic("reader:secret")).ask("DELETE", f"{at}/manifests/v1")
        assert answer.code() == "DENIED" and b"reader does not have the right to delete in acme/app" in answer.body
        answer = server.client().ask("GET", f"{at}/manifests/v1")
        assert answer.code() == "UNAUTHORIZED" and answer["WWW-Authenticate"].startswith("Basic realm="), answer.headers


def prefixes_are_of_whole_components():
    with serving_rights() as (server, _):
        for repo, expected in (("acme/app/low", 202), ("acme/app/low/x", 202), ("acme/app", 403), ("acme/app/lower", 403)):
            assert status(server, "low", "POST", f"/v2/{repo}/blobs/uploads/") == expected, repo
        # Encoded, the path names the same repository.
        assert status(server, "low", "POST", "/v2/acme%2Fapp%2Flow/blobs/uploads/") == 202
        assert status(server, "low", "POST", "/v2/acme/app/low/../x/blobs/uploads/") == 400


def a_mount_reads_its_source():
    with serving_rights() as (server, _):
        _, _, layer = put_image(server.client(basic("acme:secret")), "acme/app")
        for data in (b"hidden", b"low"):
            put = server.client(basic("acme:secret")).ask
            assert put("POST", f"/v2/acme/{data.decode()}/blobs/uploads/?digest={sha256(data)}", data, PATCH).status == 201
        def mount(user, digest, source):
            query = f"?mount={digest}" + (f"&from={source}" if source else "")
            return status(server, user, "POST", f"/v2/acme/app/low/blobs/uploads/{query}")
        # A source that may not be read is as one without the blob: an upload is opened.
        for source in ("acme/app", "acme/hidden", "acme/none", ""):
            assert mount("low", layer, source) == 202, source
        assert mount("acme", sha256(b"hidden"), "") == 201 and mount("acme", layer, "acme/app") == 201
        assert mount("reader", layer, "acme/app") == 403
        # What the repository has itself is linked again.
        assert mount("low", layer, "acme/hidden") == 201


def everybody_reads_what_is_public():
    with serving_rights() as (server, _):
        _, digest, layer = put_image(server.client(basic("acme:secret")), "acme/public/app")
        for user in (None, "other", "acme"):
            for path in ("manifests/v1", f"manifests/{digest}", f"blobs/{layer}", "tags/list"):
                assert status(server, user, path=f"/v2/acme/public/app/{path}") == 200, (user, path)
        assert status(server, "other", "DELETE", "/v2/acme/public/app/manifests/v1") == 403
        assert status(server, None, "DELETE", "/v2/acme/public/app/manifests/v1") == 401
        for path in ("/v2/", "/v2/acme/publicity/tags/list", "/v2/_catalog", "/metrics"):
            assert status(server, None, path=path) == 401, path
        # Some clients send an empty user if they have none.
        empty = basic(":")
        assert server.client(empty).ask("GET", "/v2/acme/public/app/manifests/v1").status == 200
        assert server.client(empty).ask("GET", "/v2/").status == 401
        assert status(server, "other", path="/v2/acme/public/app/manifests/v1", password="wrong") == 401


def skopeo_and_podman_push_with_a_password_and_pull_without():
    with serving_rights() as (server, _), tempfile.TemporaryDirectory() as top:
        image(f"{top}/image", [1000], 1)
        at, login, plain = f"docker://{server.address}/acme", "acme:secret", "--dest-tls-verify=false"
        push = ["copy", plain, f"oci:{top}/image:latest"]
        skopeo(*push, "--dest-creds", login, f"{at}/public:v1")
        skopeo(*push, "--dest-creds", login, f"{at}/app:v1")
        skopeo("copy", "--src-no-creds", "--src-tls-verify=false", f"{at}/public:v1", f"oci:{top}/back:latest")
        same_blobs(f"{top}/image", f"{top}/back")
        skopeo("copy", "--src-creds", "reader:secret", "--src-tls-verify=false", f"{at}/app:v1", f"oci:{top}/app:latest")
        for words in (["--dest-no-creds", f"{at}/public:v2"], ["--dest-creds", "other:secret", f"{at}/public:v2"]):
            fails(lambda: skopeo(*push, *words))
        fails(lambda: skopeo("copy", "--src-no-creds", "--src-tls-verify=false", f"{at}/app:v1", f"oci:{top}/none:latest"))
        if has_podman("rights"):
            podman(top, "pull", "--tls-verify=false", f"{server.address}/acme/public:v1")
            image_name, at = f"{server.address}/acme/public:v1", f"{server.address}/acme/podman:v1"
            podman(top, "push", "--tls-verify=false", "--creds", login, image_name, at)
            fails(lambda: podman(top, "pull", "--tls-verify=false", at))


def has_podman(name):
    """Returns whether podman can run here, and otherwise reports that a test is left out."""
    can = shutil.which("podman") is not None and os.geteuid() == 0
    if not can:
        print(f"{name}: left out: podman")
    return can


def podman(folder, command, *words):
    """Runs podman with its store in a folder."""
    run(*Podman(folder).words, command, "-q", *words)


def fails(call):
    try:
        call()
    except AssertionError:
        return
    raise AssertionError("it succeeds")


def rights_are_read_again():
    with serving_rights() as (server, file):
        assert status(server, "writer", "POST", "/v2/acme/app/blobs/uploads/") == 202
        write(file, *RIGHTS.replace("write  ", "read   ").splitlines())
        server.reload("read the rights again")
        assert status(server, "writer", "POST", "/v2/acme/app/blobs/uploads/") == 403
        for line, why in (("writer all acme", "no such right: `all`"), ("writer write acme/", "not the name of a repository"),
                          ("writer write", "not USER RIGHTS PREFIX"), ("* write acme", "everybody may only read")):
            write(file, *RIGHTS.splitlines(), line)
            server.reload(f"{file}: line 9: {why}.*: kept the rights")
            assert status(server, "writer", "POST", "/v2/acme/app/blobs/uploads/") == 403
        write(file, *RIGHTS.splitlines())
        server.reload("read the rights again")
        assert status(server, "writer", "POST", "/v2/acme/app/blobs/uploads/") == 202


def a_start_names_the_line():
    with users(f"acme:{CHEAP}") as file, users("# rights", "acme read") as rights:
        check(ended("--htpasswd", file, "--rights", rights), 1, f"cannot read the rights: {rights}: line 2: not USER RIGHTS PREFIX")
        check(ended("--htpasswd", file, "--rights", f"{rights}.none"), 1, f"cannot read the rights: {rights}.none: No such file")
        check(ended("--rights", rights), 2, "--htpasswd")


TESTS = [a_removed_user_is_refused, a_changed_password_is_another, a_broken_file_keeps_the_users, open_requests_go_on,
         a_reload_without_files_is_no_end, a_pipe_is_read_by_nobody, each_request_needs_its_right, prefixes_are_of_whole_components, a_mount_reads_its_source,
         everybody_reads_what_is_public, skopeo_and_podman_push_with_a_password_and_pull_without, rights_are_read_again,
         a_start_names_the_line]


def main():
    names = sys.argv[1:]
    tests = [test for test in TESTS if not names or test.__name__ in names]
    wrong = sum(played(test) for test in tests)
    print(f"rights: {len(tests) - wrong} passed, {wrong} failed")
    sys.exit(wrong > 0)


if __name__ == "__main__":
    main()
