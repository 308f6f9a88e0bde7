#!/usr/bin/env python3
"""Tests manifests and tags with a slow store, with concurrent writers, and in every form that a client may send."""
import json, random, threading, time

from playing import Asking, play, serving_stub, took
from server import MANIFEST, serving, sha256

PATCH = {"Content-Type": "application/octet-stream"}
KIND = {"Content-Type": MANIFEST}
PUT_MANIFEST, GET_MANIFEST, DELETE_MANIFEST, STAT_MANIFEST = "8", "9", "10", "18"


def image(number, **more):
    """Returns a manifest with this number. It has no blobs that the stub would check."""
    config = {"mediaType": "application/vnd.oci.image.config.v1+json", "digest": sha256(b"{}"), "size": 2}
    return json.dumps({"schemaVersion": 2, "mediaType": MANIFEST, "config": config, "layers": [], "annotations": {"n": str(number)}, **more}).encode()


def a_slow_call_for_one_tenant_holds_no_other_up():
    with serving_stub({f"{PUT_MANIFEST} acme/slow": {"slow": 3}, f"{DELETE_MANIFEST} acme/slow": {"slow": 3}}) as server:
        client = server.client()
        for repo in ("acme/one", "other/one"):
            assert client.ask("PUT", f"/v2/{repo}/manifests/v1", image(1), KIND).status == 201
        def others(busy):
            for repo in ("other/one", "acme/one"):
                for path in ("manifests/v1", "tags/list"):
                    answer, seconds = took(lambda: client.ask("GET", f"/v2/{repo}/{path}"))
                    assert answer.status == 200 and seconds < 2, (repo, path, answer.status, seconds)
                answer, seconds = took(lambda: client.ask("PUT", f"/v2/{repo}/manifests/v2", image(2), KIND))
                assert answer.status == 201 and seconds < 2, (repo, answer.status, seconds)
            assert busy.answer is None, "the slow call ended before it was measured"
        for busy in (lambda: Asking(server, "PUT", "/v2/acme/slow/manifests/v1", image(3), KIND),
                     lambda: Asking(server, "DELETE", f"/v2/acme/slow/manifests/{sha256(image(3))}")):
            asking = busy()
            time.sleep(0.2)
            others(asking)
            assert asking.answered().status in (201, 202), asking.answer.status


def a_repository_is_read_while_it_is_written():
    with serving_stub({f"{PUT_MANIFEST} acme/one": {"slow": 3}}) as server:
        client = server.client()
        assert client.ask("PUT", "/v2/acme/one/manifests/v1", image(1), KIND).status == 201
        asking = Asking(server, "PUT", "/v2/acme/one/manifests/v2", image(2), KIND)
        time.sleep(0.2)
        for path in ("manifests/v1", "tags/list"):
            answer, seconds = took(lambda: client.ask("GET", f"/v2/acme/one/{path}"))
            assert answer.status == 200 and seconds < 2, (path, answer.status, seconds)
        assert asking.answer is None and asking.answered().status == 201


def a_put_and_a_delete_of_one_manifest_take_turns():
    """The store has to finish the put before the delete begins; otherwise the tag would name a deleted manifest."""
    with serving_stub({PUT_MANIFEST: {"late": 0.6}}) as server:
        client = server.client()
        asking = Asking(server, "PUT", "/v2/acme/one/manifests/v1", image(1), KIND)
        time.sleep(0.2)
        deleted = client.ask("DELETE", f"/v2/acme/one/manifests/{sha256(image(1))}")
        assert (asking.answered().status, deleted.status) == (201, 202), (asking.answer.status, deleted.status)
        assert client.ask("GET", "/v2/acme/one/tags/list").status == 404
        assert client.ask("GET", "/v2/acme/one/manifests/v1").status == 404


def a_delete_that_the_store_refuses_leaves_the_tags():
    memory = 17
    with serving_stub({DELETE_MANIFEST: {"status": memory}}) as server:
        client = server.client()
        assert client.ask("PUT", "/v2/acme/one/manifests/v1", image(1), KIND).status == 201
        assert client.ask("DELETE", f"/v2/acme/one/manifests/{sha256(image(1))}").status == 503
        assert json.loads(client.ask("GET", "/v2/acme/one/tags/list").body)["tags"] == ["v1"]


def writers_at_once_leave_no_tag_without_its_manifest(server):
    """Clients put and delete the same few manifests under the same few tags at the same time."""
    config = b"{}"
    assert server.client().ask("POST", f"/v2/acme/many/blobs/uploads/?digest={sha256(config)}", config, PATCH).status == 201
    bodies, faults = [image(number) for number in range(3)], []
    def write(seed):
        client, choice = server.client(), random.Random(seed)
        for _ in range(100):
            body, tag = choice.choice(bodies), f"v{choice.randrange(4)}"
            if choice.random() < 0.6:
                wanted, answer = (201,), client.ask("PUT", f"/v2/acme/many/manifests/{tag}", body, KIND)
            elif choice.random() < 0.8:
                wanted, answer = (202, 404), client.ask("DELETE", f"/v2/acme/many/manifests/{sha256(body)}")
            else:
                wanted, answer = (202, 404), client.ask("DELETE", f"/v2/acme/many/manifests/{tag}")
            if answer.status not in wanted:
                faults.append((answer.status, answer.body[:100]))
    for turn in range(2):
        writers = [threading.Thread(target=write, args=(100 * turn + number,)) for number in range(6)]
        for writer in writers:
            writer.start()
        for writer in writers:
            writer.join()
        assert not faults, faults[:3]
        client = server.client()
        listed = client.ask("GET", "/v2/acme/many/tags/list")
        for tag in json.loads(listed.body)["tags"] if listed.status == 200 else []:
            answer = client.ask("GET", f"/v2/acme/many/manifests/{tag}")
            assert answer.status == 200 and sha256(answer.body) == answer["Docker-Content-Digest"], (tag, answer.status)


def lists_of_tags_have_a_bound(server):
    client, body = server.client(), image(1)
    assert client.ask("POST", f"/v2/acme/tags/blobs/uploads/?digest={sha256(b'{}')}", b"{}", PATCH).status == 201
    tags = [f"v{number:04}" for number in range(1001)]
    for tag in tags:
        assert client.ask("PUT", f"/v2/acme/tags/manifests/{tag}", body, KIND).status == 201
    for query in ("", "?n=5000", "?n=1000"):
        page = client.ask("GET", f"/v2/acme/tags/tags/list{query}")
        assert json.loads(page.body)["tags"] == tags[:1000], (query, len(page.body))
        assert page["Link"] == '</v2/acme/tags/tags/list?n=1000&last=v0999>; rel="next"', (query, page["Link"])
    rest = client.ask("GET", page["Link"].split(">")[0][1:])
    assert json.loads(rest.body)["tags"] == tags[1000:] and rest["Link"] is None, rest.body[:100]


def a_tag_that_always_exists_is_always_found():
    """Its manifest is deleted between the look-up of the tag and the read of the manifest, while the tag moves to another."""
    slow = {"slow": 1.5}
    with serving_stub({GET_MANIFEST: slow, STAT_MANIFEST: slow}) as server:
        client = server.client()
        assert client.ask("PUT", "/v2/acme/one/manifests/v1", image(1), KIND).status == 201
        for number, method in ((2, "GET"), (3, "HEAD")):
            asking = Asking(server, method, "/v2/acme/one/manifests/v1")
            time.sleep(0.2)
            assert client.ask("PUT", "/v2/acme/one/manifests/v1", image(number), KIND).status == 201
            assert client.ask("DELETE", f"/v2/acme/one/manifests/{sha256(image(number - 1))}").status == 202
            answer = asking.answered()
            assert (answer.status, answer["Docker-Content-Digest"]) == (200, sha256(image(number))), (method, answer.status)
        # A tag that was deleted with its manifest is not found.
        asking = Asking(server, "GET", "/v2/acme/one/manifests/v1")
        time.sleep(0.2)
        assert client.ask("DELETE", f"/v2/acme/one/manifests/{sha256(image(3))}").status == 202
        assert asking.answered().status == 404, asking.answer.status


def a_media_type_belongs_to_the_content():
    docker = "application/vnd.docker.distribution.manifest.v2+json"
    index = "application/vnd.oci.image.index.v1+json"
    listing = b'{"schemaVersion":2,"manifests":[]}'
    plain = image(1).replace(f'"mediaType": "{MANIFEST}", '.encode(), b"", 1)
    assert b"config" in plain and len(plain) < len(image(1)) - len(MANIFEST)
    with serving_stub({}) as server:
        client = server.client()
        def put(tag, body, kind, status):
            answer = client.ask("PUT", f"/v2/acme/one/manifests/{tag}", body, {"Content-Type": kind} if kind else {})
            assert answer.status == status, (tag, answer.status, answer.body[:200])
            if status == 400:
                assert answer.code() == "MANIFEST_INVALID", (tag, answer.body[:200])
        def served(tag, kind):
            for method in ("GET", "HEAD"):
                answer = client.ask(method, f"/v2/acme/one/manifests/{tag}")
                assert (answer.status, answer["Content-Type"]) == (200, kind), (tag, answer.status, answer["Content-Type"])
        put("own", image(2), None, 201)
        served("own", MANIFEST)
        put("parameters", image(3), MANIFEST + "; charset=utf-8", 201)
        served("parameters", MANIFEST)
        put("other", image(4), docker, 400)
        put("other", image(4), "application/octet-stream", 400)
        put("index", listing, None, 201)
        served("index", index)
        put("index", listing, MANIFEST, 400)
        put("index", listing, docker, 400)
        put("image", plain, index, 400)
        put("long", plain, "application/" + "x" * 256, 400)
        put("broken", image(5, mediaType="a\nb/c"), None, 400)
        # The repository keeps the media type under every tag until the manifest is deleted.
        put("v1", plain, docker, 201)
        put("v2", plain, MANIFEST, 400)
        put("v3", plain, None, 201)
        served("v1", docker)
        served("v3", docker)
        assert client.ask("DELETE", f"/v2/acme/one/manifests/{sha256(plain)}").status == 202
        put("v2", plain, MANIFEST, 201)
        served("v2", MANIFEST)


def main():
    with serving("--slots", "16") as server:
        play("manifests", [
            a_slow_call_for_one_tenant_holds_no_other_up, a_repository_is_read_while_it_is_written,
            a_put_and_a_delete_of_one_manifest_take_turns, a_delete_that_the_store_refuses_leaves_the_tags,
            a_media_type_belongs_to_the_content, a_tag_that_always_exists_is_always_found,
            (writers_at_once_leave_no_tag_without_its_manifest, server), (lists_of_tags_have_a_bound, server)])


if __name__ == "__main__":
    main()
