#!/usr/bin/env python3
"""Tests restarts of a registry with a folder: after a signal, and after SIGKILL of either program or of both."""
import contextlib, json, os, random, re, signal, sqlite3, tempfile, threading, time

from crash.paths import log_of
from playing import LASTING, every_upload, play, until
from referrers import artifact, descriptor, index, page, referrers
from server import INDEX, MANIFEST, manifest_of, serving, sha256, sha512

PATCH = {"Content-Type": "application/octet-stream"}
DOCKER = "application/vnd.docker.distribution.manifest.v2+json"
CONFIG = b"{}"
MIB = 1 << 20


def without_number(name):
    """Returns the name of a file of a folder, in which the number of an owner is `N`."""
    return re.sub(r"^owner-\d+$", "owner-N", name)


def by_signal(server):
    assert server.end() == 0, server.logged()[-1000:]


def by_kill_of_registryd(server):
    server.process.kill()
    server.process.wait()


def by_kill_of_blobd(server):
    os.kill(server.child(), signal.SIGKILL)
    assert server.process.wait(timeout=60) == 1, server.logged()[-1000:]


def by_kill_of_both(server):
    child = server.child()
    server.process.kill()
    os.kill(child, signal.SIGKILL)
    server.process.wait()


WAYS = [by_signal, by_kill_of_registryd, by_kill_of_blobd, by_kill_of_both]


@contextlib.contextmanager
def folder():
    with tempfile.TemporaryDirectory() as path:
        yield os.path.join(path, "registry")


@contextlib.contextmanager
def database(path):
    """Opens the database of a folder whose programs have ended."""
    with contextlib.closing(sqlite3.connect(f"{path}/registry.db", timeout=10)) as connection:
        connection.execute("PRAGMA foreign_keys = ON")
        with connection:
            yield connection


def push(client, repo, data):
    status = client.ask("POST", f"/v2/{repo}/blobs/uploads/?digest={sha256(data)}", data, PATCH).status
    assert status == 201, status


def push_manifest(client, repo, reference, content, kind=MANIFEST):
    answer = client.ask("PUT", f"/v2/{repo}/manifests/{reference}", content, {"Content-Type": kind})
    assert answer.status == 201, (answer.status, answer.body)
    return sha256(content)


def opened(client, repo="acme/one"):
    answer = client.ask("POST", f"/v2/{repo}/blobs/uploads/")
    assert answer.status == 202, (answer.status, answer.body)
    return answer["Location"]


def pushed(client, repo="acme/one", tag="v1", layer=b"layer"):
    """Pushes an image, and returns its manifest."""
    for data in (CONFIG, layer):
        push(client, repo, data)
    content = manifest_of(CONFIG, [layer])
    push_manifest(client, repo, tag, content)
    return content


def pulled(client, repo, reference):
    answer = client.ask("GET", f"/v2/{repo}/manifests/{reference}")
    return (answer.body, answer["Content-Type"]) if answer.status == 200 else answer.status


def tags_of(client, repo):
    answer = client.ask("GET", f"/v2/{repo}/tags/list")
    return json.loads(answer.body)["tags"] if answer.status == 200 else answer.status


def what_was_answered_is_there():
    """After each way to end the programs, all content, tags and media types are there, and nothing deleted is."""
    plain = b'{"schemaVersion":2,"config":{"mediaType":"a/b","digest":"%s","size":2}}' % sha256(CONFIG).encode()
    index = b'{"schemaVersion":2,"manifests":[]}'
    with folder() as path:
        for number, way in enumerate(WAYS):
            with serving("--data", path) as server:
                client = server.client()
                image = pushed(client, layer=b"layer %d" % number)
                push_manifest(client, "acme/one", f"docker{number}", plain + b" " * number, DOCKER)
                push_manifest(client, "acme/index", "all", index, INDEX)
                push_manifest(client, "acme/one", f"moved{number}", image)
                push_manifest(client, "acme/one", f"moved{number}", plain + b" " * number, DOCKER)
                for tag in (f"gone{number}", f"kept{number}"):
                    push_manifest(client, "acme/one", tag, image)
                assert client.ask("DELETE", f"/v2/acme/one/manifests/gone{number}").status == 202
                gone = pushed(client, "acme/two", f"v{number}", b"gone %d" % number)
                assert client.ask("DELETE", f"/v2/acme/two/manifests/{sha256(gone)}").status == 202
                assert client.ask("DELETE", f"/v2/acme/two/blobs/{sha256(b'gone %d' % number)}").status == 202
                way(server)
            with serving("--data", path) as server:
                client = server.client()
                for past in range(number + 1):
                    image = manifest_of(CONFIG, [b"layer %d" % past])
                    assert pulled(client, "acme/one", f"kept{past}") == (image, MANIFEST), (way, past)
                    assert pulled(client, "acme/one", sha256(image)) == (image, MANIFEST), (way, past)
                    assert pulled(client, "acme/one", f"docker{past}") == (plain + b" " * past, DOCKER), (way, past)
                    assert pulled(client, "acme/one", f"moved{past}") == (plain + b" " * past, DOCKER), (way, past)
                    assert client.ask("GET", f"/v2/acme/one/blobs/{sha256(b'layer %d' % past)}").body == b"layer %d" % past
                    gone = manifest_of(CONFIG, [b"gone %d" % past])
                    assert pulled(client, "acme/two", sha256(gone)) == pulled(client, "acme/two", f"v{past}") == 404, (way, past)
                    assert client.ask("HEAD", f"/v2/acme/two/blobs/{sha256(b'gone %d' % past)}").status == 404, (way, past)
                names = [f"{name}{past}" for name in ("docker", "kept", "moved") for past in range(number + 1)]
                assert tags_of(client, "acme/one") == [*names, "v1"], (way, tags_of(client, "acme/one"))
                assert tags_of(client, "acme/two") == 404 and pulled(client, "acme/index", "all") == (index, INDEX)
                assert server.end() == 0


def an_upload_is_resumed_by_its_location():
    """A content in a file was hashed by SHA-256 alone. So the upload stays after a close by SHA-512."""
    data = random.Random(1).randbytes(90_000)
    for way in WAYS:
        with folder() as path:
            for digest in (sha256(data), sha512(data)):
                with serving("--data", path, "--sync", "each") as server:
                    at = opened(server.client())
                    assert server.client().ask("PATCH", at, data[:60_000], PATCH).status == 202
                    way(server)
                with serving("--data", path, "--sync", "each") as server:
                    client = server.client()
                    status = client.ask("GET", at)
                    assert (status.status, status["Range"], status["Location"]) == (204, "0-59999", at), (way, status.status)
                    rest = {**PATCH, "Content-Range": f"60000-{len(data) - 1}"}
                    assert client.ask("PATCH", at, data[60_000:], rest).status == 202
                    closed = client.ask("PUT", f"{at}?digest={digest}")
                    if digest.startswith("sha512:"):
                        assert (closed.status, closed.code()) == (400, "UNSUPPORTED") and b"sha256" in closed.body, closed.body
                        digest = sha256(data)
                        closed = client.ask("PUT", f"{at}?digest={digest}")
                    assert closed.status == 201, closed.status
                    assert client.ask("GET", f"/v2/acme/one/blobs/{digest}").body == data
                    assert client.ask("GET", at).status == 404
                    assert server.metric("registryd_uploads") == 0
                    assert client.ask("DELETE", f"/v2/acme/one/blobs/{digest}").status == 202
                    by_signal(server)


def with_sha512_an_upload_is_closed_by_either_digest():
    """A start reads the chunks of open uploads, and hashes them as it was told to, whatever the process before did. One upload is in the
    log when the process ends, and one in a file."""
    data = random.Random(3).randbytes(3 * MIB + 5)
    both = ["--sha512"]
    for before, after in ((both, both), ([], both), (both, [])):
        for way in WAYS:
            with folder() as path:
                with serving("--data", path, "--sync", "each", *before) as server:
                    client = server.client()
                    uploads = [(opened(client), (3, 10)), (opened(client), (MIB, MIB + 7, 2 * MIB))]
                    for at, ends in uploads:
                        for start, end in zip((0, *ends), ends):
                            assert client.ask("PATCH", at, data[start:end], PATCH).status == 202
                    way(server)
                with serving("--data", path, "--sync", "each", *after) as server:
                    client = server.client()
                    for at, (*_, sent) in uploads:
                        digest, rest = sha512(data), {**PATCH, "Content-Range": f"{sent}-{len(data) - 1}"}
                        assert client.ask("GET", at)["Range"] == f"0-{sent - 1}"
                        assert client.ask("PATCH", at, data[sent:], rest).status == 202
                        wrong = client.ask("PUT", f"{at}?digest={sha512(data[1:])}")
                        closed = client.ask("PUT", f"{at}?digest={digest}")
                        if after:
                            assert (wrong.status, wrong.code()) == (400, "DIGEST_INVALID"), (way, wrong.status, wrong.body)
                        else:
                            for refused in (wrong, closed):
                                assert (refused.status, refused.code()) == (400, "UNSUPPORTED"), (way, refused.status, refused.body)
                                assert b"without --sha512" in refused.body, refused.body
                            digest = sha256(data)
                            closed = client.ask("PUT", f"{at}?digest={digest}")
                        assert (closed.status, closed["Docker-Content-Digest"]) == (201, digest), (way, closed.status, closed.body)
                        assert client.ask("GET", f"/v2/acme/one/blobs/{digest}").body == data
                    by_signal(server)
                # What was closed is there, however it was hashed.
                with serving("--data", path) as server:
                    assert server.client().ask("GET", f"/v2/acme/one/blobs/{digest}").body == data
                    by_signal(server)


def with_sha512_a_content_in_a_file_is_closed_by_it():
    data = random.Random(4).randbytes(3 * MIB)
    with folder() as path, serving("--data", path, "--sha512") as server:
        client = server.client()
        at = f"/v2/acme/one/blobs/{sha512(data)}"
        # In one request, in a PUT after a POST, and in chunks of several lengths, of which the first ones are in memory.
        assert client.ask("POST", f"/v2/acme/one/blobs/uploads/?digest={sha512(data)}", data, PATCH).status == 201
        assert client.ask("GET", at).body == data
        assert client.ask("DELETE", at).status == 202
        upload = opened(client)
        assert client.ask("PUT", f"{upload}?digest={sha512(data)}", data, PATCH).status == 201
        assert client.ask("DELETE", at).status == 202
        upload, sent = opened(client), 0
        for length in (1, 10_000, 10_000, MIB, len(data) - MIB - 20_001):
            answer = client.ask("PATCH", upload, data[sent:sent + length], PATCH)
            sent += length
            assert (answer.status, answer["Range"]) == (202, f"0-{sent - 1}")
        assert client.ask("PUT", f"{upload}?digest={sha512(b'other')}").code() == "DIGEST_INVALID"
        assert client.ask("PUT", f"{upload}?digest={sha512(data)}").status == 201
        assert client.ask("GET", at).body == data
        # The other digest of the same bytes is another blob.
        assert client.ask("HEAD", f"/v2/acme/one/blobs/{sha256(data)}").status == 404
        push(client, "acme/one", data)
        assert client.ask("GET", f"/v2/acme/one/blobs/{sha256(data)}").body == data
        by_signal(server)


def an_upload_whose_chunk_is_lost_goes_on_where_the_store_says():
    """With `closes`, a chunk of less than 1 MiB may be lost if blobd is killed."""
    with folder() as path:
        for way in WAYS:
            data = random.Random(2).randbytes(70_000)
            with serving("--data", path) as server:
                at = opened(server.client())
                assert server.client().ask("PATCH", at, data[:30_000], PATCH).status == 202
                way(server)
            with serving("--data", path) as server:
                client = server.client()
                status = client.ask("GET", at)
                received = 0 if status["Range"] == "0-0" else int(status["Range"].split("-")[1]) + 1
                assert status.status == 204 and received in (0, 30_000), (way, status.status, received)
                assert received == 30_000 or way in (by_kill_of_blobd, by_kill_of_both), (way, received)
                last = {**PATCH, "Content-Range": f"{received}-{len(data) - 1}"}
                assert client.ask("PUT", f"{at}?digest={sha256(data)}", data[received:], last).status == 201
                assert client.ask("GET", f"/v2/acme/one/blobs/{sha256(data)}").body == data
                by_signal(server)


def an_upload_expires_after_a_restart():
    """Both if the row of the upload is in the database and if it is not, because the program was killed at once."""
    used = 'registryd_tenant_used_bytes{tenant="acme"}'
    for rest in (0, 1.6):
        for way in WAYS:
            with folder() as path:
                words = ("--data", path, "--sync", "each")
                with serving(*words) as server:
                    client = server.client()
                    ats = [opened(client, repo) for repo in ("acme/one", "acme/two", "other/one")]
                    assert {client.ask("PATCH", at, b"abc", PATCH).status for at in ats} == {202}
                    time.sleep(rest)
                    way(server)
                with serving(*words) as server:
                    client = server.client()
                    assert (server.metric("registryd_uploads"), server.metric(used)) == (3, 6), (way, rest)
                    assert {client.ask("GET", at)["Range"] for at in ats} == {"0-2"}, (way, rest)
                    way(server)
                with serving(*words, "--session-s", "1") as server:
                    assert until(lambda: server.metric("registryd_uploads") == 0), (way, rest)
                    assert until(lambda: server.metric(used) == 0), (way, rest)
                    assert {server.client().ask("GET", at).status for at in ats} == {404}, (way, rest)
                    with database(path) as rows:
                        assert until(lambda: rows.execute("SELECT count(*) FROM uploads").fetchone() == (0,)), (way, rest)
                    by_signal(server)


def all_open_uploads_are_found():
    """A tenant's maximum of open uploads, so that the store opens none at the start, and more in another tenant before."""
    with folder() as path:
        with serving("--data", path) as server:
            client = server.client()
            for _ in range(30):
                assert client.ask("DELETE", opened(client, "other/one")).status == 204
            with every_upload(server, "acme/one") as ats:
                ats.append(opened(client, "other/two"))
                by_kill_of_both(server)
        for _ in range(2):
            with serving("--data", path) as server:
                client = server.client()
                assert server.metric("registryd_uploads") == 65, server.metric("registryd_uploads")
                assert {client.ask("GET", at).status for at in ats} == {204}
                by_kill_of_registryd(server)
        with database(path) as rows:
            assert rows.execute("SELECT count(*) FROM uploads").fetchone() == (65,)
            # Rows that a loss of power took.
            rows.execute("DELETE FROM uploads")
            rows.execute("UPDATE tenants SET recorded = 0")
        with serving("--data", path) as server:
            client = server.client()
            assert server.metric("registryd_uploads") == 65, server.metric("registryd_uploads")
            assert {client.ask("DELETE", at).status for at in ats} == {204}
            assert client.ask("DELETE", opened(client)).status == 204
            by_signal(server)


def a_name_is_made_by_this_registry_alone():
    with folder() as path, folder() as other:
        with serving("--data", path) as server, serving("--data", other) as another, serving() as third:
            client, ats = server.client(), []
            for served in (another, third, server):
                ats.append(opened(served.client()))
            assert [client.ask("GET", at).status for at in ats] == [404, 404, 204], ats
            at = ats[-1]
            assert client.ask("GET", at.replace("/one/", "/two/")).status == 404
            for place in range(len(at) - 36, len(at)):
                changed = at[:place] + ("0" if at[place] != "0" else "1") + at[place + 1:]
                assert at[place] == "-" or client.ask("PATCH", changed, b"x", PATCH).status == 404, changed
            assert client.ask("DELETE", at.upper().replace("/V2/ACME/ONE/BLOBS/UPLOADS/", "/v2/acme/one/blobs/uploads/")).status == 204


def a_manifest_without_its_tag_is_found():
    """A crash came after the store had the manifest and before the tag was durable, or within a delete."""
    with folder() as path:
        with serving("--data", path) as server:
            image, gone = (pushed(server.client(), layer=layer) for layer in (b"one", b"two"))
            by_signal(server)
        with database(path) as rows:
            rows.execute("DELETE FROM manifests")
            assert rows.execute("SELECT count(*) FROM tags").fetchone() == (0,)
        with serving("--data", path) as server:
            client = server.client()
            assert pulled(client, "acme/one", "v1") == 404 and tags_of(client, "acme/one") == 404
            assert client.ask("HEAD", f"/v2/acme/one/manifests/{sha256(image)}")["Content-Type"] == MANIFEST
            assert pulled(client, "acme/one", sha256(image)) == (image, MANIFEST)
            assert tags_of(client, "acme/one") == []
            assert client.ask("DELETE", f"/v2/acme/one/manifests/{sha256(gone)}").status == 202
            assert pulled(client, "acme/one", sha256(gone)) == 404
            by_kill_of_both(server)
        with serving("--data", path) as server:
            client = server.client()
            assert pulled(client, "acme/one", sha256(image)) == (image, MANIFEST)
            assert pulled(client, "acme/one", sha256(gone)) == 404
            push_manifest(client, "acme/one", "v1", image)
            assert tags_of(client, "acme/one") == ["v1"]


def a_tag_without_its_manifest_is_dropped():
    with folder() as path:
        with serving("--data", path) as server:
            image = pushed(server.client())
            by_signal(server)
        missing = sha256(b"missing")
        with database(path) as rows:
            rows.execute("INSERT INTO manifests (repository, digest, media_type) VALUES ('acme/one', ?, ?)", (missing, MANIFEST))
            rows.executemany("INSERT INTO tags (repository, tag, digest) VALUES ('acme/one', ?, ?)", [("old", missing), ("older", missing)])
            rows.execute("INSERT INTO manifests (repository, digest, media_type) VALUES ('nobody/one', ?, ?)", (missing, MANIFEST))
        with serving("--data", path, "--accept-loss") as server:
            client = server.client()
            assert "dropped manifests that the store does not have, with their tags count=2" in server.logged(), server.logged()
            assert tags_of(client, "acme/one") == ["v1"] and pulled(client, "acme/one", "old") == 404
            assert pulled(client, "acme/one", "v1") == (image, MANIFEST)
            by_signal(server)
        with database(path) as rows:
            assert rows.execute("SELECT tag FROM tags").fetchall() == [("v1",)]
            assert rows.execute("SELECT count(*) FROM manifests").fetchone() == (1,)


def referrers_are_the_same_after_a_restart():
    """After each way to end the programs, lists of referrers have what was pushed, and indexes protect what they list."""
    with folder() as path:
        gone = []
        for number, way in enumerate(WAYS):
            with serving("--data", path) as server:
                client = server.client()
                image = pushed(client)
                for content in (artifact(image, annotations={"n": str(number)}), artifact(image, annotations={"gone": str(number)})):
                    push_manifest(client, "acme/one", sha256(content), content)
                assert client.ask("DELETE", f"/v2/acme/one/manifests/{sha256(content)}").status == 202
                gone.append(content)
                push_manifest(client, "acme/one", "all", index(descriptor(image), subject=descriptor(image), artifactType="a/b"), INDEX)
                before = referrers(client, "acme/one", image)
                assert len(before) == number + 2, before
                way(server)
            with serving("--data", path) as server:
                client = server.client()
                assert referrers(client, "acme/one", image) == before, way
                assert {pulled(client, "acme/one", sha256(content)) for content in gone} == {404}, way
                assert client.ask("DELETE", f"/v2/acme/one/manifests/{sha256(image)}").status == 403, way
                assert server.end() == 0


def before_version_4(rows):
    """Removes from a database what version 4 added."""
    for trigger in ("manifest_added", "manifest_changed", "manifest_removed", "tag_added", "tag_removed"):
        rows.execute(f"DROP TRIGGER {trigger}")
    rows.execute("DROP TABLE counts")
    for name in ("manifests_by_size", "listed_by_manifest"):
        rows.execute(f"DROP INDEX {name}")


def before_version_3(rows):
    """Removes from a database what versions 3 and 4 added."""
    before_version_4(rows)
    for column in ("pushed", "pulled"):
        rows.execute(f"ALTER TABLE tags DROP COLUMN {column}")
    for table in ("robots", "events", "receivers", "cached"):
        rows.execute(f"DROP TABLE {table}")


def a_database_of_version_1_is_taken_over():
    """Referrers that were pushed before there was a list of them are listed (OCI Distribution Specification 1.1, "Enabling the Referrers API")."""
    with folder() as path:
        with serving("--data", path) as server:
            client = server.client()
            image = pushed(client)
            first, second = artifact(image, annotations={"n": "1"}), index(descriptor(image), subject=descriptor(image))
            for content, kind in ((first, MANIFEST), (second, INDEX)):
                push_manifest(client, "acme/one", sha256(content), content, kind)
            # The list that a client keeps in a tag if the registry has none.
            push_manifest(client, "acme/one", sha256(image).replace(":", "-"), index(descriptor(first), descriptor(second, INDEX)), INDEX)
            before = referrers(client, "acme/one", image)
            by_signal(server)
        with database(path) as rows:
            before_version_3(rows)
            rows.execute("DROP TABLE listed")
            rows.execute("DROP TABLE loose_blobs")
            rows.execute("DROP INDEX manifests_by_subject")
            for column in ("size", "artifact_type", "subject", "since"):
                rows.execute(f"ALTER TABLE manifests DROP COLUMN {column}")
            rows.execute("PRAGMA user_version = 1")
        for way in (by_kill_of_both, by_signal):
            with serving("--data", path) as server:
                client = server.client()
                assert len(before) == 2 and referrers(client, "acme/one", image) == before
                for content in (image, first):
                    assert client.ask("DELETE", f"/v2/acme/one/manifests/{sha256(content)}").status == 403
                assert ("read manifests of a database of an earlier version count=4" in server.logged()) == (way == by_kill_of_both)
                way(server)


def an_interrupted_push_of_a_referrer_is_found():
    """The store has a referrer whose row is missing: a crash came before it was durable, or within its delete."""
    with folder() as path:
        with serving("--data", path) as server:
            client = server.client()
            image = pushed(client)
            referrer = artifact(image)
            push_manifest(client, "acme/one", sha256(referrer), referrer)
            by_signal(server)
        with database(path) as rows:
            rows.execute("DELETE FROM manifests WHERE digest = ?", [sha256(referrer)])
            # A referrer that the store does not have.
            rows.execute("INSERT INTO manifests (repository, digest, media_type, size, subject) VALUES ('acme/one', ?, ?, 1, ?)",
                         (sha256(b"missing"), MANIFEST, sha256(image)))
        with serving("--data", path, "--accept-loss") as server:
            client = server.client()
            assert page(client, f"/v2/acme/one/referrers/{sha256(image)}") == ([], None)
            assert pulled(client, "acme/one", sha256(referrer)) == (referrer, MANIFEST)
            assert [one["digest"] for one in referrers(client, "acme/one", image)] == [sha256(referrer)]
            by_signal(server)


def a_database_that_is_lost_costs_the_tags():
    with folder() as path:
        with serving("--data", path) as server:
            image, at = pushed(server.client()), opened(server.client())
            by_signal(server)
        os.remove(f"{path}/registry.db")
        with serving("--data", path, "--accept-loss") as server:
            client = server.client()
            assert "accepted a loss: registry.db is missing or empty" in server.logged()
            assert pulled(client, "acme/one", "v1") == 404 and pulled(client, "acme/one", sha256(image)) == (image, MANIFEST)
            assert client.ask("GET", at).status == 404


def numbers_that_return_get_other_names():
    """The store has lost uploads that the database knows, and uses their numbers again."""
    with folder() as path:
        with serving("--data", path, "--sync", "never") as server:
            at = opened(server.client())
            by_signal(server)
        with database(path) as rows:
            rows.execute("UPDATE tenants SET recorded = 1000")
        with serving("--data", path) as server:
            client = server.client()
            assert "the store has lost uploads" in server.logged()
            assert client.ask("GET", at).status == 404
            at = opened(client)
            by_kill_of_registryd(server)
        with serving("--data", path) as server:
            assert server.client().ask("GET", at).status == 204
            assert "the store has lost uploads" not in server.logged()


def a_tag_that_many_move_at_once_is_the_same_after_a_restart():
    with folder() as path:
        for round_ in range(4):
            with serving("--data", path) as server:
                client = server.client()
                images = [pushed(client, tag=f"image{number}", layer=b"%d" % number) for number in range(8)]
                commits = server.metric("registryd_database_commits_total")
                def move(image):
                    mine = server.client()
                    for _ in range(5):
                        push_manifest(mine, "acme/one", "moved", image)
                movers = [threading.Thread(target=move, args=[image]) for image in images]
                for mover in movers:
                    mover.start()
                for mover in movers:
                    mover.join()
                before = pulled(client, "acme/one", "moved")
                assert server.metric("registryd_database_commits_total") - commits <= 40
                by_kill_of_both(server)
            with serving("--data", path) as server:
                assert pulled(server.client(), "acme/one", "moved") == before, round_


def refused_uploads_leave_no_repository():
    with folder() as path:
        with serving("--data", path) as server:
            client = server.client()
            for _ in range(LASTING):
                opened(client, "acme/full")
            paths = [f"/v2/acme/r{number}/blobs/uploads/" for number in range(5)]
            refused = [client.ask("POST", path + query) for path in paths for query in ("", f"?mount={sha256(b'none')}")]
            assert {(answer.status, answer.code()) for answer in refused} == {(429, "TOOMANYREQUESTS")}
            for name in ("nobody/x", "acme/X", "acme//x"):
                assert client.ask("POST", f"/v2/{name}/blobs/uploads/").status in (400, 404), name
            by_signal(server)
        with database(path) as rows:
            assert rows.execute("SELECT name FROM repositories").fetchall() == [("acme/full",)]


def a_start_removes_empty_repositories():
    """A crash may leave the record of a repository that is empty, or that the store does not have. Also a start without any other one finds
    the next number of an upload."""
    with folder() as path:
        with serving("--data", path) as server:
            assert server.client().ask("DELETE", opened(server.client(), "acme/gone")).status == 204
            by_signal(server)
        for _ in range(2):
            with database(path) as rows:
                assert rows.execute("SELECT name FROM repositories").fetchall() == []
                rows.execute("INSERT INTO repositories (name) VALUES ('acme/a'), ('acme/z')")
            with serving("--data", path) as server:
                assert repositories_of(server, "acme") == []
                by_signal(server)
        with serving("--data", path) as server:
            pushed(server.client(), "acme/kept")
            opened(server.client(), "acme/open")
            by_kill_of_both(server)
        with serving("--data", path) as server:
            assert repositories_of(server, "acme") == ["acme/kept", "acme/open"]


def repositories_of(server, tenant):
    page = json.loads(server.client().ask("GET", f"/status?tenant={tenant}").body)
    return [repo["name"] for repo in page["repositories"]]


def a_registry_that_is_never_synced_survives_the_end_of_the_programs():
    with folder() as path:
        for way in WAYS:
            with serving("--data", path, "--sync", "never") as server:
                assert server.metric("registryd_durable") == 0
                image = pushed(server.client(), tag=way.__name__)
                way(server)
            with serving("--data", path, "--sync", "never") as server:
                assert pulled(server.client(), "acme/one", way.__name__) == (image, MANIFEST), way


def the_folder_is_measured():
    with folder() as path:
        with serving("--data", path) as server:
            client = server.client()
            pushed(client)
            assert server.metric("registryd_durable") == 1
            assert server.metric("registryd_log_bytes") == log_of(path).length()
            assert server.metric("registryd_live_bytes") == len(CONFIG + b"layer")
            files = sum(os.path.getsize(f"{path}/registry.db{end}") for end in ("", "-wal"))
            assert server.metric("registryd_database_bytes") == files
            room = os.statvfs(path)
            assert abs(server.metric("registryd_free_bytes") - room.f_bavail * room.f_frsize) < 1 << 30
            before = server.metric("registryd_database_commits_total")
            # Another program reads the database while the registry writes it.
            with database(path) as rows:
                assert rows.execute("SELECT tag FROM tags").fetchall() == [("v1",)]
                pushed(client, tag="v2")
                assert rows.execute("SELECT tag FROM tags ORDER BY tag").fetchall() == [("v1",), ("v2",)]
            assert server.metric("registryd_database_commits_total") > before
            assert os.stat(f"{path}/registry.db").st_mode & 0o77 == 0
            by_signal(server)
        names = sorted(without_number(name) for name in os.listdir(path))
        assert names == ["contents", "lock", "log.1", "longest", "owner-N", "probe", "registry.commits", "registry.db", "reserve"], names
    with serving() as server:
        assert server.metric("registryd_durable") == 0
        text = server.client().ask("GET", "/metrics").body
        assert b"registryd_log_bytes" not in text and b"registryd_live_bytes" not in text


def main():
    play("restarts", [
        what_was_answered_is_there, an_upload_is_resumed_by_its_location, with_sha512_an_upload_is_closed_by_either_digest,
        with_sha512_a_content_in_a_file_is_closed_by_it,
        an_upload_whose_chunk_is_lost_goes_on_where_the_store_says, an_upload_expires_after_a_restart, all_open_uploads_are_found,
        a_name_is_made_by_this_registry_alone, a_manifest_without_its_tag_is_found, a_tag_without_its_manifest_is_dropped,
        referrers_are_the_same_after_a_restart, a_database_of_version_1_is_taken_over, an_interrupted_push_of_a_referrer_is_found,
        a_database_that_is_lost_costs_the_tags, numbers_that_return_get_other_names,
        a_tag_that_many_move_at_once_is_the_same_after_a_restart, refused_uploads_leave_no_repository, a_start_removes_empty_repositories,
        a_registry_that_is_never_synced_survives_the_end_of_the_programs, the_folder_is_measured])


if __name__ == "__main__":
    main()
