#!/usr/bin/env python3
"""Tests how a registry with a folder ends, each with its exit status and its message, what it does if its disk is almost full, and
if a call to the store fails. A test of a full disk is left out if it may not mount one."""
import contextlib, os, random, re, resource, signal, subprocess, tempfile, time

from crash.paths import log_of
from playing import play, serving_stub, until
from restarts import PATCH, by_signal, database, folder, opened, pulled, push, pushed
from server import BLOBD, MANIFEST, REGISTRYD, index_of, push_index, serving, sha256


START, DELETE_MANIFEST = "1", "10"


def ended(*words, tenants=("acme=1000000000", "other=1000000000", "poor=1000000"), programs=(REGISTRYD, BLOBD), **options):
    """Starts a registry that is expected to end, and returns its status and its log."""
    command = [programs[0], "--listen", "127.0.0.1:0", "--blobd", programs[1], *words, *tenants]
    done = subprocess.run(command, stderr=subprocess.PIPE, text=True, timeout=60, **options)
    return done.returncode, done.stderr


def check(result, status, *texts):
    assert result[0] == status, result
    for text in texts:
        assert text in result[1], (text, result[1])


def a_folder_that_cannot_be_used():
    for name in ("log.1", "base.1", "lock", "registry.db"):
        with folder() as path:
            os.makedirs(f"{path}/{name}")
            check(ended("--data", path), 6, name, "see to its rights and its disk")
    with folder() as path:
        check(ended("--data", f"{path}/no/folder"), 6, "no/folder", "see to its rights and its disk")


def a_folder_that_another_process_has():
    with folder() as path, serving("--data", path):
        begun = time.time()
        check(ended("--data", path), 7, "another process has the folder of --data: end that one")
        assert 4 < time.time() - begun < 30


def a_database_that_another_process_has():
    with folder() as path:
        with serving("--data", path) as server:
            by_signal(server)
        with database(path) as rows:
            rows.execute("BEGIN EXCLUSIVE")
            check(ended("--data", path), 7, "registry.db", "another process has it: end that one")
        with serving("--data", path) as server:
            by_signal(server)


def a_folder_is_released_after_a_kill():
    """The store of a killed registry is alive for a moment, and holds the folder."""
    with folder() as path:
        for _ in range(5):
            with serving("--data", path) as server:
                server.process.kill()
            with serving("--data", path) as server:
                by_signal(server)


def a_damaged_log():
    """Each of its two files is damaged. What is in the file before it is not lost."""
    large = index_of(1, 1_200_000)
    for name, status_of_large in (("log.1", 404), ("log.2", 200)):
        with folder() as path:
            with serving("--data", path) as server:
                at = push_index(server.client(), "acme/one", large)
                pushed(server.client())
                pushed(server.client(), tag="v2", layer=b"another")
                by_signal(server)
            assert [file.name for file in log_of(path).paths] == ["log.1", "log.2"]
            with open(f"{path}/{name}", "r+b") as log:
                log.seek(200)
                byte = log.read(1)
                log.seek(200)
                log.write(bytes([byte[0] ^ 1]))
            status, text = ended("--data", path)
            check((status, text), 8, name, "restore a backup, or go on with what is left with --accept-loss", "--accept-loss-after")
            # What blobd names is what the option takes. Tags whose manifests are lost are dropped.
            byte = re.search(r"byte (\d+) of the log", text).group(1)
            with serving("--data", path, "--accept-loss-after", byte) as server:
                client = server.client()
                assert pulled(client, "acme/one", "v2") == 404
                assert client.ask("HEAD", at).status == status_of_large, name
                assert "dropped manifests that the store does not have" in server.logged()
                by_signal(server)


def a_damaged_database():
    with folder() as path:
        with serving("--data", path) as server:
            pushed(server.client())
            by_signal(server)
        with open(f"{path}/registry.db", "r+b") as file:
            file.write(b"x" * 4096)
        check(ended("--data", path), 8, "registry.db", "restore a backup")


def a_log_that_cannot_be_written():
    with folder() as path:
        with serving("--data", path) as server:
            client = server.client()
            image = pushed(client)
            longest = os.path.getsize(log_of(path).last)
            resource.prlimit(server.child(), resource.RLIMIT_FSIZE, (longest, resource.RLIM_INFINITY))
            with contextlib.suppress(OSError):
                assert client.ask("POST", f"/v2/acme/one/blobs/uploads/?digest={sha256(b'x')}", b"x", PATCH).status == 503
            assert server.process.wait(timeout=60) == 9, server.logged()[-1000:]
            assert "the log cannot be written any more: make room or replace the disk" in server.logged()
        with serving("--data", path) as server:
            assert pulled(server.client(), "acme/one", "v1") == (image, MANIFEST)


def a_database_that_cannot_be_written():
    with folder() as path:
        with serving("--data", path) as server:
            client = server.client()
            image = pushed(client)
            longest = os.path.getsize(f"{path}/registry.db-wal")
            resource.prlimit(server.process.pid, resource.RLIMIT_FSIZE, (longest, resource.RLIM_INFINITY))
            with contextlib.suppress(OSError):
                assert client.ask("PUT", "/v2/acme/one/manifests/v2", image, {"Content-Type": MANIFEST}).status == 503
            assert server.process.wait(timeout=60) == 9, server.logged()[-1000:]
            assert "the database cannot be written any more" in server.logged(), server.logged()[-1000:]
        with serving("--data", path) as server:
            client = server.client()
            assert pulled(client, "acme/one", "v1") == (image, MANIFEST) and pulled(client, "acme/one", "v2") == 404


def lower_limits():
    """Starts with other limits of a tenant: each pair of folder and limit that fits serves, and another one is named."""
    index = b'{"schemaVersion":2,"manifests":[],"annotations":{"n":"%d"}}'
    with folder() as path:
        def put(client, repo, number):
            return client.ask("PUT", f"/v2/acme/{repo}/manifests/{sha256(index % number)}", index % number).status
        words = ("--data", path, "--repositories", "2", "--repository-manifests", "2", "--uploads", "8")
        with serving(*words) as server:
            client = server.client()
            assert [put(client, *key) for key in (("a", 1), ("a", 2), ("a", 3), ("b", 1), ("c", 1))] == [201, 201, 403, 201, 403]
            assert [client.ask("POST", "/v2/acme/a/blobs/uploads/").status for _ in range(5)] == [202] * 4 + [429]
            by_signal(server)
        with serving("--data", path, "--repositories", "3", "--repository-manifests", "3", "--uploads", "9") as server:
            client = server.client()
            assert [put(client, *key) for key in (("a", 3), ("a", 4), ("c", 1), ("d", 1))] == [201, 403, 201, 403]
            assert [client.ask("POST", "/v2/acme/a/blobs/uploads/").status for _ in range(2)] == [202, 429]
            by_signal(server)
        for option, number in (("--repositories", 2), ("--repository-manifests", 2)):
            check(ended("--data", path, option, str(number)), 10, "the log needs other settings", "acme")
        with serving("--data", path, "--repositories", "3", "--repository-manifests", "3") as server:
            assert server.client().ask("GET", f"/v2/acme/c/manifests/{sha256(index % 1)}").status == 200
            by_signal(server)
        for option, number in (("--repositories", 0), ("--repositories", 65537), ("--repository-manifests", 1048577), ("--uploads", 4),
                               ("--uploads", 4097), ("--uploads", "x")):
            check(ended("--data", path, option, str(number)), 2, option, str(number))


def the_most_tenants_and_slots():
    """As many tenants as there may be are served, also after a restart, in a store of more slots than by default."""
    tenants, body = tuple(f"t{number}=1000000" for number in range(4096)), b"of the last tenant"
    path = f"/v2/t4095/app/blobs/{sha256(body)}"
    with folder() as data:
        for is_new in (True, False):
            with serving("--data", data, "--slots", "70000", tenants=tenants) as server:
                client = server.client()
                if is_new:
                    assert client.ask("POST", f"/v2/t4095/app/blobs/uploads/?digest={sha256(body)}", body, PATCH).status == 201
                assert client.ask("GET", path).body == body
                assert server.metric("registryd_free_slots") == 69999
                by_signal(server)
    check(ended(tenants=(*tenants, "more=1")), 2, "too many tenants: 4097: the maximum is 4096")
    for number in (0, 16777217):
        check(ended("--slots", str(number)), 2, "--slots", str(number))


def other_settings():
    with folder() as path:
        with serving("--data", path, "--slots", "8") as server:
            pushed(server.client())
            by_signal(server)
        check(ended("--data", path, tenants=["other=1000"]), 10, "the log needs other settings", "acme")
        check(ended("--data", path, "--slots", "1"), 10, "--slots")
        with serving("--data", path, "--slots", "2", tenants=["acme=1000000", "new=5"]) as server:
            by_signal(server)


def each_program_ends_after_the_other_is_killed():
    with folder() as path:
        with serving("--data", path) as server:
            os.kill(server.child(), signal.SIGKILL)
            assert server.process.wait(timeout=60) == 1
            assert "the store is gone: blobd ended: signal: 9 (SIGKILL): start again" in server.logged()
        with serving("--data", path) as server:
            child = server.child()
            server.process.kill()
            server.process.wait()
            def is_gone():
                with contextlib.suppress(FileNotFoundError):
                    with open(f"/proc/{child}/stat") as file:
                        return file.read().split()[2] == "Z"
                return True
            assert until(is_gone)


def options_of_a_folder_need_one():
    for words in (["--sync", "each"], ["--sha512"], ["--accept-loss-after", "1"], ["--min-free", "1"], ["--data", "x", "--sync", "often"]):
        check(ended(*words), 2)


def a_disk_that_is_almost_full_takes_no_content():
    with folder() as path:
        with serving("--data", path) as server:
            client = server.client()
            image, at = pushed(client), opened(client)
            assert client.ask("PATCH", at, b"abc", PATCH).status == 202
            push(client, "acme/one", b"unused")
            by_signal(server)
        with serving("--data", path, "--min-free", str(1 << 60), "--sync", "each") as server:
            client = server.client()
            blob = f"?digest={sha256(b'layer')}"
            for method, where, body in (
                    ("POST", "acme/one/blobs/uploads/", None), ("POST", f"acme/one/blobs/uploads/{blob}", b"layer"),
                    ("POST", f"acme/two/blobs/uploads/?mount={sha256(b'none')}&from=acme/one", None),
                    ("PATCH", at[len("/v2/"):], b"d"), ("PUT", f"{at[len('/v2/'):]}{blob}", b"d"),
                    ("PUT", "acme/one/manifests/v2", image)):
                answer = client.ask(method, f"/v2/{where}", body, PATCH if body and method != "PUT" else {})
                assert (answer.status, answer.code(), answer["Retry-After"]) == (507, "UNSUPPORTED", "60"), (where, answer.status)
                assert b"the disk of the registry is almost full: only reads and deletes are served" in answer.body
            assert server.metric("registryd_uploads") == 1
            assert pulled(client, "acme/one", "v1") == (image, MANIFEST) and client.ask("GET", at)["Range"] == "0-2"
            assert client.ask("POST", f"/v2/acme/two/blobs/uploads/?mount={sha256(b'layer')}&from=acme/one").status == 201
            assert client.ask("GET", f"/v2/acme/two/blobs/{sha256(b'layer')}").body == b"layer"
            assert client.ask("DELETE", f"/v2/acme/one/blobs/{sha256(b'unused')}").status == 202
            assert client.ask("DELETE", at).status == 204 and client.ask("DELETE", "/v2/acme/one/manifests/v1").status == 202
            assert client.ask("GET", "/healthz").status == 200
            by_signal(server)
        with serving("--data", path, "--min-free", "0") as server:
            pushed(server.client())


@contextlib.contextmanager
def small_disk(megabytes):
    """Mounts a disk of this size, or returns nothing if that is not permitted."""
    with tempfile.TemporaryDirectory() as path:
        mounted = subprocess.run(["mount", "-t", "tmpfs", "-o", f"size={megabytes}m", "none", path], stderr=subprocess.DEVNULL)
        try:
            yield path if mounted.returncode == 0 else None
        finally:
            if mounted.returncode == 0:
                subprocess.run(["umount", "-l", path], check=True)


def a_disk_never_gets_full():
    with small_disk(7) as path:
        if path is None:
            print("statuses: left out: a disk that gets full (cannot mount one)")
            return
        with serving("--data", f"{path}/registry", "--min-free", str(2 << 20)) as server:
            client = server.client()
            image, at = pushed(client), opened(client)
            part, sent = random.Random(1).randbytes(50_000), 0
            while (answer := client.ask("PATCH", at, part, PATCH)).status == 202:
                sent += len(part)
                assert sent < 7 << 20
            assert answer.status == 507, answer.status
            assert sent > 1 << 20 and client.ask("GET", at)["Range"] == f"0-{sent - 1}", sent
            assert client.ask("PUT", "/v2/acme/one/manifests/v2", image, {"Content-Type": MANIFEST}).status == 507
            assert pulled(client, "acme/one", "v1") == (image, MANIFEST)
            assert client.ask("DELETE", at).status == 204
            assert 0 < server.metric("registryd_free_bytes") < 4 << 20
            by_signal(server)


@contextlib.contextmanager
def serving_stub_with(path, rules, *words):
    os.makedirs(path)
    with serving_stub(rules, "--data", path, *words) as server:
        yield server


def rows_of(path, query):
    with database(path) as rows:
        return rows.execute(query).fetchall()


def a_manifest_that_the_store_keeps_is_shown_again():
    """The store refuses to delete it, after its rows were removed."""
    memory = 17
    with folder() as path:
        with serving_stub_with(path, {DELETE_MANIFEST: {"status": memory}}) as server:
            client = server.client()
            image, digest = pushed(client), sha256(pushed(client, tag="v2"))
            assert client.ask("DELETE", f"/v2/acme/one/manifests/{digest}").status == 503
            assert [pulled(client, "acme/one", name) for name in ("v1", "v2", digest)] == [(image, MANIFEST)] * 3
            assert rows_of(path, "SELECT tag, digest FROM tags ORDER BY tag") == [("v1", digest), ("v2", digest)]
            assert client.ask("DELETE", "/v2/acme/one/manifests/v1").status == 202
            assert rows_of(path, "SELECT tag FROM tags") == [("v2",)]


def a_manifest_whose_delete_is_late_has_no_tag():
    with folder() as path:
        with serving_stub_with(path, {DELETE_MANIFEST: {"late": 2}}, "--call-s", "1") as server:
            client = server.client()
            image = pushed(client)
            assert client.ask("DELETE", f"/v2/acme/one/manifests/{sha256(image)}").status == 503
            assert pulled(client, "acme/one", "v1") == pulled(client, "acme/one", sha256(image)) == 404
            assert rows_of(path, "SELECT count(*) FROM manifests") == [(0,)]
            assert client.ask("PUT", "/v2/acme/one/manifests/v1", image, {"Content-Type": MANIFEST}).status == 201
            assert pulled(client, "acme/one", "v1") == (image, MANIFEST)
            assert rows_of(path, "SELECT tag FROM tags") == [("v1",)]


def the_number_of_an_upload_that_is_undone_is_recorded():
    """The reply to its start is late, so it is abandoned. Later numbers are recorded too."""
    with folder() as path:
        with serving_stub_with(path, {f"{START} acme/slow": {"late": 1.5}}, "--call-s", "1", "--lines", "4") as server:
            client = server.client()
            opened(client)
            assert client.ask("POST", "/v2/acme/slow/blobs/uploads/").status == 503
            opened(client)
            # The number 1 is that of the upload that finds the tenant's next number.
            assert until(lambda: rows_of(path, "SELECT name, recorded FROM tenants") == [("acme", 4)])
            assert rows_of(path, "SELECT number FROM uploads ORDER BY number") == [(2,), (4,)]
            assert server.metric("registryd_uploads") == 2


def main():
    play("statuses", [
        a_folder_that_cannot_be_used, a_folder_that_another_process_has, a_database_that_another_process_has,
        a_folder_is_released_after_a_kill, a_damaged_log, a_damaged_database, a_log_that_cannot_be_written,
        a_database_that_cannot_be_written, the_most_tenants_and_slots, other_settings, lower_limits, each_program_ends_after_the_other_is_killed, options_of_a_folder_need_one,
        a_disk_that_is_almost_full_takes_no_content, a_disk_never_gets_full,
        a_manifest_that_the_store_keeps_is_shown_again, a_manifest_whose_delete_is_late_has_no_tag,
        the_number_of_an_upload_that_is_undone_is_recorded])


if __name__ == "__main__":
    main()
