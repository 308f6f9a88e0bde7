#!/usr/bin/env python3
"""Tests immutable tags: moves, pushes of the same manifest, deletes, many clients at once, retention, SIGHUP, restarts, and skopeo."""
import concurrent.futures, contextlib, json, sys, tempfile, threading

from hardships import played
from images import image, skopeo
from limits import users
from playing import until
from referrers import descriptor, index
from restarts import by_kill_of_both, by_signal, folder, push
from retention import KEEP, is_there
from rights import write
from server import INDEX, MANIFEST, manifest_of, serving, sha256
from statuses import check, ended

RULES = """# PREFIX   PATTERN
acme/app   v*
other      release-?
"""
AGAIN = "read the immutable tags again"
REFUSALS = "registryd_immutable_refusals_total"


@contextlib.contextmanager
def serving_rules(*words, rules=RULES):
    """Starts a registry with immutable tags. Returns it and their file."""
    with users(*rules.splitlines()) as file, serving("--immutable-tags", file, *words) as server:
        yield server, file


def images_of(client, repo, count):
    """Pushes the blobs of several images, and returns their manifests."""
    layers = [b"layer %d" % number for number in range(count)]
    for data in (b"{}", *layers):
        push(client, repo, data)
    return [manifest_of(b"{}", [layer]) for layer in layers]


def put(client, repo, reference, content, kind=MANIFEST, **headers):
    return client.ask("PUT", f"/v2/{repo}/manifests/{reference}", content, {"Content-Type": kind, **headers})


def digest_of(client, repo, reference):
    answer = client.ask("HEAD", f"/v2/{repo}/manifests/{reference}")
    return answer["Docker-Content-Digest"] if answer.status == 200 else answer.status


def delete(client, repo, reference):
    return client.ask("DELETE", f"/v2/{repo}/manifests/{reference}")


def refused(answer, tag, content):
    """Checks that a request was refused because a tag names a manifest."""
    assert (answer.status, answer.code()) == (409, "DENIED"), (answer.status, answer.body)
    failure = json.loads(answer.body)["errors"][0]
    assert failure["message"].startswith(f"tag {tag} is immutable") and failure["detail"] == {"tag": tag, "digest": sha256(content)}, failure


def a_tag_does_not_move():
    with serving_rules() as (server, _):
        client = server.client()
        one, two = images_of(client, "acme/app", 2)
        assert put(client, "acme/app", "v1", one).status == 201
        refused(put(client, "acme/app", "v1", two), "v1", one)
        # Nothing of the refused push is there.
        assert (digest_of(client, "acme/app", "v1"), digest_of(client, "acme/app", sha256(two))) == (sha256(one), 404)
        assert put(client, "acme/app", "v1", one).status == 201
        refused(put(client, "acme/app", "v1", two, **{"If-Match": f'"{sha256(one)}"'}), "v1", one)
        assert put(client, "acme/app", "v1", two, **{"If-Match": f'"{sha256(two)}"'}).status == 412
        # By its digest and under other tags, the manifest is pushed.
        for reference in (sha256(two), "latest", "v2"):
            assert put(client, "acme/app", reference, two).status == 201, reference
        assert put(client, "acme/app", "latest", one).status == 201
        assert digest_of(client, "acme/app", "latest") == sha256(one)
        assert server.metric(REFUSALS) == 2
        status = json.loads(client.ask("GET", "/status").body)
        assert status["immutable_tags"] == {"rules": 2, "refusals": 2}, status["immutable_tags"]


def a_rule_is_of_a_prefix():
    with serving_rules() as (server, _):
        client = server.client()
        for repo, tag, moves in (("acme/app/web", "v1", False), ("acme/apple", "v1", True), ("acme/app", "version", False),
                                 ("acme/app", "1-v", True), ("other", "release-1", False), ("other/app", "release-10", True)):
            one, two = images_of(client, repo, 2)
            assert put(client, repo, tag, one).status == 201
            assert put(client, repo, tag, two).status == (201 if moves else 409), (repo, tag)


def a_tag_and_its_manifest_are_not_deleted():
    with serving_rules() as (server, _):
        client = server.client()
        one, two = images_of(client, "acme/app", 2)
        for tag, content in (("v1", one), ("latest", one), ("next", two)):
            assert put(client, "acme/app", tag, content).status == 201
        refused(delete(client, "acme/app", "v1"), "v1", one)
        refused(delete(client, "acme/app", sha256(one)), "v1", one)
        assert digest_of(client, "acme/app", "v1") == digest_of(client, "acme/app", "latest") == sha256(one)
        assert server.metric(REFUSALS) == 2
        for reference in ("latest", "next", sha256(two)):
            assert delete(client, "acme/app", reference).status == 202, reference
        for reference in ("latest", "v2", sha256(two)):
            assert delete(client, "acme/app", reference).status == 404, reference
        assert server.metric(REFUSALS) == 2


def what_an_index_lists_stays():
    with serving_rules() as (server, _):
        client = server.client()
        one, = images_of(client, "acme/app", 1)
        listing = index(descriptor(one))
        assert put(client, "acme/app", sha256(one), one).status == put(client, "acme/app", "v1", listing, INDEX).status == 201
        refused(delete(client, "acme/app", sha256(listing)), "v1", listing)
        assert delete(client, "acme/app", sha256(one)).status == 403


def rules_are_read_again():
    with serving_rules() as (server, file):
        client = server.client()
        one, two = images_of(client, "acme/app", 2)
        for tag in ("v1", "latest"):
            assert put(client, "acme/app", tag, one).status == 201
        write(file, "acme latest", "* x", "* y")
        server.reload(AGAIN)
        assert put(client, "acme/app", "v1", two).status == 201
        refused(put(client, "acme/app", "latest", two), "latest", one)
        assert json.loads(client.ask("GET", "/status").body)["immutable_tags"]["rules"] == 3
        for line, why in (("acme", "not PREFIX PATTERN"), ("acme/ v1", "not the name of a repository"), ("acme v[1]", "not a pattern of tags")):
            write(file, "* *", line)
            server.reload(f"{file}: line 2: {why}.*: kept the immutable tags")
            assert put(client, "acme/app", "v1", one).status == put(client, "acme/app", "v1", two).status == 201
            refused(delete(client, "acme/app", "latest"), "latest", one)
        write(file)
        server.reload(AGAIN)
        for reference in ("latest", sha256(one)):
            assert delete(client, "acme/app", reference).status == 202


def one_of_many_clients_wins():
    """Clients push different manifests under one new tag, delete it, and delete their manifests."""
    clients, rounds = 12, 10
    with serving_rules() as (server, _), concurrent.futures.ThreadPoolExecutor(2 * clients) as pool:
        contents = images_of(server.client(), "acme/app", clients)
        for number in range(rounds):
            tag, barrier = f"v{number}", threading.Barrier(2 * clients)
            def pushes(content):
                client = server.client()
                barrier.wait()
                return put(client, "acme/app", tag, content).status
            def deletes(content):
                client = server.client()
                barrier.wait()
                return [delete(client, "acme/app", reference).status for reference in (tag, sha256(content), tag)]
            pushed_by = {pool.submit(pushes, content): content for content in contents}
            deleted = [pool.submit(deletes, content) for content in contents]
            won = [content for future, content in pushed_by.items() if future.result() == 201]
            statuses = sorted(future.result() for future in pushed_by)
            assert statuses == [201] + (clients - 1) * [409], statuses
            assert all(status in (404, 409) for future in deleted for status in future.result()), [future.result() for future in deleted]
            assert digest_of(server.client(), "acme/app", tag) == sha256(won[0])
            got = server.client().ask("GET", f"/v2/acme/app/manifests/{tag}")
            assert got.status == 200 and got.body == won[0]


def retention_keeps_what_a_tag_holds():
    with serving_rules(*KEEP) as (server, _):
        client = server.client()
        one, two = images_of(client, "acme/app", 2)
        assert put(client, "acme/app", "v1", one).status == put(client, "acme/app", sha256(two), two).status == 201
        assert is_there(client, "acme/app", two)
        assert until(lambda: not is_there(client, "acme/app", two), 30)
        assert digest_of(client, "acme/app", "v1") == sha256(one)
        assert client.ask("HEAD", f"/v2/acme/app/blobs/{sha256(b'layer 0')}").status == 200
        assert server.metric(REFUSALS) == 0


def a_restart_keeps_the_tags():
    with users(*RULES.splitlines()) as file, folder() as path:
        for end in (by_signal, by_kill_of_both):
            with serving("--data", path, "--immutable-tags", file) as server:
                client = server.client()
                one, two = images_of(client, "acme/app", 2)
                assert put(client, "acme/app", "v1", one).status == 201
                refused(put(client, "acme/app", "v1", two), "v1", one)
                end(server)
        with serving("--data", path, "--immutable-tags", file) as server:
            client = server.client()
            refused(put(client, "acme/app", "v1", two), "v1", one)
            refused(delete(client, "acme/app", sha256(one)), "v1", one)
        # Without the option, the tag is as any other.
        with serving("--data", path) as server:
            client = server.client()
            assert put(client, "acme/app", "v1", two).status == 201 and delete(client, "acme/app", "v1").status == 202
            assert json.loads(client.ask("GET", "/status").body)["immutable_tags"] is None


def a_start_names_the_line():
    with users("# tags", "acme v1", "acme") as file:
        check(ended("--immutable-tags", file), 1, f"cannot read the immutable tags: {file}: line 3: not PREFIX PATTERN")
        check(ended("--immutable-tags", f"{file}.none"), 1, f"cannot read the immutable tags: {file}.none: No such file")


def skopeo_says_why():
    with serving_rules() as (server, _), tempfile.TemporaryDirectory() as top:
        at, plain = f"docker://{server.address}/acme/app", "--dest-tls-verify=false"
        for number in (1, 2):
            image(f"{top}/{number}", [1000], number)
        for _ in range(2):
            skopeo("copy", plain, f"oci:{top}/1:latest", f"{at}:v1")
        for words in (["copy", "--retry-times", "3", plain, f"oci:{top}/2:latest", f"{at}:v1"], ["delete", "--tls-verify=false", f"{at}:v1"]):
            before = server.metric(REFUSALS)
            try:
                skopeo(*words)
            except AssertionError as error:
                assert "tag v1 is immutable" in str(error), error
            else:
                raise AssertionError(f"it succeeds: {words}")
            # It does not try again.
            assert server.metric(REFUSALS) == before + 1, words
        skopeo("copy", plain, f"oci:{top}/2:latest", f"{at}:v2")


TESTS = [a_tag_does_not_move, a_rule_is_of_a_prefix, a_tag_and_its_manifest_are_not_deleted, what_an_index_lists_stays, rules_are_read_again,
         one_of_many_clients_wins, retention_keeps_what_a_tag_holds, a_restart_keeps_the_tags, a_start_names_the_line, skopeo_says_why]


def main():
    names = sys.argv[1:]
    tests = [test for test in TESTS if not names or test.__name__ in names]
    wrong = sum(played(test) for test in tests)
    print(f"immutable: {len(tests) - wrong} passed, {wrong} failed")
    sys.exit(wrong > 0)


if __name__ == "__main__":
    main()
