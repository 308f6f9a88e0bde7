#!/usr/bin/env python3
"""Tests the list of manifests without tags, and their deletion after some time, with that of their blobs."""
import concurrent.futures, contextlib, json, os, sqlite3, tempfile, time, urllib.request

from playing import Asking, calls, play, serving_stub, until
from referrers import artifact, descriptor, index, put, referrers, repository
from server import INDEX, MANIFEST, free_port, manifest_of, serving, sha256

PATCH = {"Content-Type": "application/octet-stream"}

# The command of the store that unlinks a blob.
DELETE = "7"

# The time after which manifests are deleted, in seconds, and as an argument in hours.
SECONDS = 2
KEEP = ("--keep-untagged", str(SECONDS / 3600))


def untagged(client, path="/untagged"):
    """Returns the manifests without tags, by repository and digest, and the number of pages."""
    found, pages = {}, 0
    while path:
        answer = client.ask("GET", path)
        assert (answer.status, answer["Content-Type"]) == (200, "application/json"), (path, answer.status, answer.body)
        for one in json.loads(answer.body)["untagged"]:
            assert (one["repository"], one["digest"]) not in found
            found[one["repository"], one["digest"]] = one
        pages, path = pages + 1, answer["Link"] and answer["Link"][1:].split(">")[0]
    return found, pages


def is_there(client, repo, content):
    """Returns whether a manifest is there, by a list: a request for it would make it stay."""
    return (repo, sha256(content)) in untagged(client)[0]


def manifests_without_tags_are_listed(server):
    client, begun = server.client(), int(time.time())
    image = repository(client, "acme/one")
    assert untagged(client) == ({}, 1)
    signature, listing = artifact(image), index(descriptor(image))
    put(client, "acme/one", signature)
    put(client, "acme/one", listing, "all")
    put(client, "other/one", listing)
    assert client.ask("DELETE", "/v2/acme/one/manifests/v1").status == 202
    def row(repo, content, kind, holder=None):
        return {"repository": repo, "digest": sha256(content), "mediaType": kind, "size": len(content), "heldBy": holder}
    expected = [row("acme/one", image, MANIFEST, sha256(listing)), row("acme/one", signature, MANIFEST, sha256(image)),
                row("other/one", listing, INDEX)]
    for query, pages in (("", 1), ("?n=1", 3), ("?n=2", 2), ("?n=3", 1)):
        found, count = untagged(client, f"/untagged{query}")
        assert count == pages and all(begun <= one.pop("since") <= time.time() for one in found.values()), (query, count)
        assert sorted(found.values(), key=str) == sorted(expected, key=str), found
        assert list(found) == sorted(found), list(found)
    # Nothing is deleted by default.
    assert len(untagged(client)[0]) == 3


def only_an_administrator_sees_the_list():
    port = free_port()
    with serving("--metrics-listen", f"127.0.0.1:{port}") as server:
        put(server.client(), "acme/one", index())
        assert server.client().ask("GET", "/untagged").status == 404
        with urllib.request.urlopen(f"http://127.0.0.1:{port}/untagged") as answer:
            assert [one["digest"] for one in json.load(answer)["untagged"]] == [sha256(index())]
    with tempfile.NamedTemporaryFile("w") as users:
        users.write("acme:!\n")
        users.flush()
        with serving("--htpasswd", users.name) as server:
            assert server.client().ask("GET", "/untagged").status == 401


def what_nothing_holds_is_deleted():
    """A manifest goes after the time since its push, or since the last thing went that held it."""
    with serving(*KEEP, "--sweep-ms", "50") as server:
        client, repo = server.client(), "acme/one"
        image = repository(client, repo)
        loose, listing = index(annotations={"loose": "yes"}), index(descriptor(image))
        signature, orphan = artifact(image), artifact(loose, annotations={"orphan": "yes"})
        tagged = artifact(image, annotations={"tagged": "yes"})
        put(client, repo, listing, "all")
        for content in (loose, signature, orphan):
            put(client, repo, content)
        put(client, repo, tagged, "signature")
        assert client.ask("DELETE", f"/v2/{repo}/manifests/v1").status == 202
        begun = time.time()
        assert until(lambda: not is_there(client, repo, loose)) and time.time() - begun > SECONDS - 1.5, time.time() - begun
        # What had the deleted manifest as subject follows after the same time.
        assert is_there(client, repo, orphan)
        assert until(lambda: not is_there(client, repo, orphan)) and time.time() - begun > 2 * (SECONDS - 1.5)
        assert is_there(client, repo, image) and is_there(client, repo, signature)
        assert len(referrers(client, repo, image)) == 2
        # The tag moves away from the index, then the index goes, then its image, then the signature of the image.
        put(client, repo, index(), "all")
        for content in (listing, image, signature):
            assert until(lambda: not is_there(client, repo, content)), sha256(content)
        assert [one["digest"] for one in referrers(client, repo, image)] == [sha256(tagged)]
        assert client.ask("GET", f"/v2/{repo}/manifests/{sha256(image)}").status == 404
        listed = json.loads(client.ask("GET", f"/v2/{repo}/tags/list").body)["tags"]
        assert (listed, untagged(client)) == (["all", "signature"], ({}, 1)), listed
        # A manifest is hidden before it is deleted, and the log has it afterwards.
        deleted = lambda: server.logged().count("deleted a manifest that nothing holds")
        assert until(lambda: deleted() == 5), deleted()


def what_clients_ask_for_stays():
    """A client asks whether a manifest is there before it pushes an index that lists it."""
    with serving(*KEEP) as server:
        client, repo, end = server.client(), "acme/one", time.time() + 2 * SECONDS
        asked, forgotten = index(annotations={"n": "1"}), index(annotations={"n": "2"})
        put(client, repo, asked)
        put(client, repo, forgotten)
        while time.time() < end:
            assert client.ask("HEAD", f"/v2/{repo}/manifests/{sha256(asked)}").status == 200
            time.sleep(0.3)
        assert is_there(client, repo, asked) and not is_there(client, repo, forgotten)
        put(client, repo, index(descriptor(asked, INDEX)), "all")
        time.sleep(SECONDS + 1)
        assert is_there(client, repo, asked)


def blobs_go_with_the_last_manifest():
    """A blob is unlinked after the time since its push, its last request, or the delete of the last manifest that refers to it."""
    with serving(*KEEP, "--sweep-ms", "50", "--slots", "64") as server:
        client, repo = server.client(), "acme/one"
        def blob(data):
            assert client.ask("POST", f"/v2/{repo}/blobs/uploads/?digest={sha256(data)}", data, PATCH).status == 201
        def free():
            return server.metric("registryd_free_slots")
        def image(*layers):
            content = manifest_of(b"{}", layers)
            put(client, repo, content, "latest")
            return content
        for data in (b"{}", b"shared", b"one", b"two", b"never used", b"asked for"):
            blob(data)
        assert client.ask("POST", f"/v2/acme/two/blobs/uploads/?mount={sha256(b'never used')}&from={repo}").status == 201
        first, end = image(b"shared", b"one"), time.time() + SECONDS + 2
        while time.time() < end:
            assert client.ask("HEAD", f"/v2/{repo}/blobs/{sha256(b'asked for')}").status == 200
            time.sleep(0.3)
        # The config and the two layers of the image are left, and what a client asks for.
        assert until(lambda: free() == 60), free()
        assert client.ask("PUT", f"/v2/{repo}/manifests/latest", manifest_of(b"{}", [b"shared", b"two"])).status == 404
        blob(b"two")
        second = image(b"shared", b"two", b"asked for")
        assert until(lambda: not is_there(client, repo, first))
        assert until(lambda: free() == 60), free()
        for data, status in ((b"{}", 200), (b"shared", 200), (b"two", 200), (b"asked for", 200), (b"one", 404), (b"never used", 404)):
            assert client.ask("GET", f"/v2/{repo}/blobs/{sha256(data)}").status == status, data
        # A client's delete of a manifest loosens its blobs too.
        assert client.ask("DELETE", f"/v2/{repo}/manifests/{sha256(second)}").status == 202
        assert until(lambda: free() == 64), free()
        assert server.left() is None
        # Both repositories are empty, so they are removed.
        repositories = lambda: json.loads(client.ask("GET", "/status?tenant=acme").body)["repositories"]
        assert until(lambda: repositories() == []), repositories()


def a_push_waits_for_the_unlink_of_its_blob():
    """The store is slow to unlink a blob. Meanwhile the blob is hidden, and a push of it is not undone by the unlink."""
    with serving_stub({DELETE: {"slow": 3, "times": 1}}, *KEEP) as server:
        client, data = server.client(), b"pushed twice"
        push, path = f"/v2/acme/one/blobs/uploads/?digest={sha256(data)}", f"/v2/acme/one/blobs/{sha256(data)}"
        assert client.ask("POST", push, data, PATCH).status == 201
        assert until(lambda: calls(server)[DELETE] == 1), "the blob is not unlinked"
        begun = time.time()
        pushing = Asking(server, "POST", push, data, PATCH)
        while time.time() < begun + 2:
            for method in ("HEAD", "GET"):
                assert client.ask(method, path).status == 404 and calls(server)[DELETE] == 1
            assert pushing.answer is None, f"the push takes no turn: {pushing.answer.status}"
            time.sleep(0.2)
        assert pushing.answered().status == 201
        while time.time() < begun + 4:
            assert client.ask("GET", path).body == data, "the unlink undoes the push"
            time.sleep(0.2)


def a_blob_that_is_pushed_after_an_unlink_without_a_reply_is_there():
    """The store replies too late each time it is asked to unlink the blob. The blob is hidden, until it is pushed again."""
    with serving_stub({DELETE: {"late": 4}}, *KEEP, "--call-s", "1") as server:
        client, data = server.client(), b"pushed again"
        push, path = f"/v2/acme/one/blobs/uploads/?digest={sha256(data)}", f"/v2/acme/one/blobs/{sha256(data)}"
        assert client.ask("POST", push, data, PATCH).status == 201
        assert until(lambda: calls(server)[DELETE] == 1, 2 * SECONDS + 5), "the blob is not unlinked"
        server.wait_for("the store does not reply in time")
        assert client.ask("GET", path).status == 404
        assert client.ask("POST", push, data, PATCH).status == 201
        answer = client.ask("GET", path)
        assert (answer.status, answer.body) == (200, data), answer.status


def a_moved_tag_begins_the_time_of_the_manifest_that_it_leaves():
    with serving() as server:
        client, repo = server.client(), "acme/one"
        first, second = index(annotations={"n": "1"}), index(annotations={"n": "2"})
        put(client, repo, first, "v1")
        put(client, repo, second)
        time.sleep(2.1)
        moved = int(time.time())
        put(client, repo, second, "v1")
        found, _ = untagged(client)
        assert list(found) == [(repo, sha256(first))], found
        assert moved <= found[repo, sha256(first)]["since"] <= time.time(), (moved, found)


def blobs_are_known_after_a_restart():
    if "WITH_FOLDER" in os.environ:
        return
    with tempfile.TemporaryDirectory() as path:
        words = ("--data", f"{path}/registry", "--slots", "64", "--sweep-ms", "50")
        with serving(*words, "--keep-untagged", "1") as server:
            repository(server.client(), "acme/one")
            assert server.client().ask("POST", f"/v2/acme/one/blobs/uploads/?digest={sha256(b'x')}", b"x", PATCH).status == 201
            time.sleep(1.5)
            server.process.kill()
            server.process.wait()
        with serving(*words, *KEEP) as server:
            begun = time.time()
            assert until(lambda: server.metric("registryd_free_slots") == 63), "a blob stays"
            assert time.time() - begun > SECONDS - 1.5, time.time() - begun
            assert server.client().ask("GET", f"/v2/acme/one/blobs/{sha256(b'{}')}").status == 200


def a_repository_takes_more_pushes_of_one_tag_than_it_has_manifests():
    """Each push of a tag leaves a manifest, of which a repository takes 100 here."""
    with serving(*KEEP, "--call-s", "20", "--repository-manifests", "100") as server:
        client = server.client()
        def push(number):
            content = index(annotations={"n": str(number)})
            return client.ask("PUT", "/v2/acme/one/manifests/latest", content).status
        statuses = {push(number) for number in range(100)}
        assert statuses <= {201}, statuses
        assert until(lambda: {push(100 + number) for number in range(10)} == {201})
        assert until(lambda: len(untagged(client)[0]) < 50), len(untagged(client)[0])


def times_survive_a_restart():
    if "WITH_FOLDER" in os.environ:
        return
    with tempfile.TemporaryDirectory() as path:
        words = ("--data", f"{path}/registry")
        with serving(*words) as server:
            client = server.client()
            image = repository(client, "acme/one")
            put(client, "acme/one", artifact(image))
            put(client, "acme/one", index(), "v1")
            before, _ = untagged(client)
            assert len(before) == 2, before
            time.sleep(SECONDS)
            assert server.end() == 0
        with serving(*words, *KEEP) as server:
            client = server.client()
            assert until(lambda: not is_there(client, "acme/one", image), 2), "the time began anew"
            signature = lambda: untagged(client)[0]["acme/one", sha256(artifact(image))]
            assert until(lambda: signature()["heldBy"] is None), signature()
            after = signature()
            assert after["since"] > before["acme/one", sha256(image)]["since"] + 1, (before, after)
            server.process.kill()
            server.process.wait()
        with serving(*words) as server:
            found, _ = untagged(server.client())
            assert list(found) == [("acme/one", sha256(artifact(image)))], found


def a_clock_that_jumps_deletes_nothing():
    """All times that were recorded are a year old, as if the clock of this start were a year ahead, or as if it had been behind before."""
    if "WITH_FOLDER" in os.environ:
        return
    year = 365 * 24 * 3600
    for changes in (["UPDATE settings SET value = value - ? WHERE name = 'time'"], ["DELETE FROM settings WHERE name = 'time' AND ? > 0"]):
        for ahead in (year, -year):
            with tempfile.TemporaryDirectory() as path:
                words = ("--data", f"{path}/registry")
                with serving(*words) as server:
                    repository(server.client(), "acme/one")
                    put(server.client(), "acme/one", index(), "v1")
                    before, _ = untagged(server.client())
                    assert server.end() == 0
                with contextlib.closing(sqlite3.connect(f"{path}/registry/registry.db")) as rows, rows:
                    for change in [*changes, "UPDATE manifests SET since = since - ?"]:
                        rows.execute(change, [ahead] if ahead > 0 or "DELETE" not in change else [year])
                with serving(*words, "--keep-untagged", "1") as server:
                    time.sleep(0.5)
                    found, _ = untagged(server.client())
                    assert list(found) == list(before) and len(found) == 1, (ahead, found)
                    for key, one in found.items():
                        assert abs(one["since"] - before[key]["since"]) < 30, (ahead, one, before)
                    assert "deleted a manifest" not in server.logged()


def what_takes_time():
    """Runs the tests that wait most of the time, each with a registry of its own, at the same time."""
    tests = [what_nothing_holds_is_deleted, what_clients_ask_for_stays, blobs_go_with_the_last_manifest, blobs_are_known_after_a_restart,
             a_moved_tag_begins_the_time_of_the_manifest_that_it_leaves, a_repository_takes_more_pushes_of_one_tag_than_it_has_manifests,
             times_survive_a_restart, a_clock_that_jumps_deletes_nothing]
    def run(test):
        try:
            test()
        except Exception as error:
            return f"{test.__name__}: {type(error).__name__}: {error}"
    with concurrent.futures.ThreadPoolExecutor(len(tests)) as pool:
        wrong = [text for text in pool.map(run, tests) if text]
    assert not wrong, "; ".join(wrong)


def main():
    with serving("--slots", "16") as server:
        play("retention", [
            (manifests_without_tags_are_listed, server), only_an_administrator_sees_the_list, a_push_waits_for_the_unlink_of_its_blob,
            a_blob_that_is_pushed_after_an_unlink_without_a_reply_is_there, what_takes_time])


if __name__ == "__main__":
    main()
