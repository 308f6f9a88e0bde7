#!/usr/bin/env python3
"""Tests what one tenant leaves for the others: the share of blobs of each tenant, a sweep for a push that finds no free slot, and the
bounds on a tenant's manifests and tags. Without a built blobd, `shares.py --stub` runs what a stub store can do."""
import json, random, sys, threading

from hardships import MIB, PATCH, head_of
from playing import calls, play, serving_stub
from restarts import by_kill_of_both, by_signal, folder, opened, push, push_manifest, pushed
from server import INDEX, manifest_of, serving, sha256
from statuses import check, ended
from views import status_of, tenant_of

CLOSE, PUT_MANIFEST, SWEEP = "4", "8", "14"
STORE_FULL = 13
NO_SWEEP = ("--sweep-ms", "1000000")
STUB = lambda *words, **options: serving_stub({}, *words, **options)


def pushing(client, repo, data):
    """Pushes a blob, and returns the response."""
    return client.ask("POST", f"/v2/{repo}/blobs/uploads/?digest={sha256(data)}", data, PATCH)


def refused(answer):
    """Returns the status and the code of a failure, and the limit and its maximum in its details."""
    error = json.loads(answer.body)["errors"][0]
    return answer.status, error["code"], error["detail"]["limit"], error["detail"]["most"]


def index_of(length):
    """The bytes of an index of this length, which refers to no blob."""
    return b'{"schemaVersion":2,"manifests":[]}'.ljust(length)


def putting(client, repo, reference, content):
    """Pushes an index, and returns the response."""
    return client.ask("PUT", f"/v2/{repo}/manifests/{reference}", content, {"Content-Type": INDEX})


def by_digest(client, repo, content):
    return putting(client, repo, sha256(content), content)


def totals_of(client, name):
    """Returns the numbers of a tenant's manifests, their bytes, and its tags."""
    tenant = tenant_of(status_of(client), name)
    return tenant["manifests"], tenant["manifest_bytes"], tenant["tags"]


def a_full_share_leaves_slots_for_others(serve):
    """Three slots are shared by two tenants. No sweep is made but the first and those for pushes."""
    with serve("--slots", "3", *NO_SWEEP, tenants=("acme=1000000,2", "other=1000000,1", "free=1000")) as server:
        client = server.client()
        for data in (b"a", b"b"):
            push(client, "acme/one", data)
        answer = pushing(client, "acme/two", b"c")
        assert refused(answer) == (403, "DENIED", "blobs", 2), answer.body
        assert b"tenant acme has 2 different blobs, which is its share" in answer.body
        # A blob that the tenant has needs no share, nor does a mount of one, which the stub does not make.
        push(client, "acme/two", b"a")
        mounted = client.ask("POST", f"/v2/acme/three/blobs/uploads/?mount={sha256(b'b')}&from=acme/one")
        assert mounted.status == (202 if serve is STUB else 201), mounted.body
        push(client, "other/one", b"a")
        shares = [(name, tenant_of(status_of(client), name)["blobs"], tenant_of(status_of(client), name)["share"]) for name in ("acme", "other", "free")]
        assert shares == [("acme", 2, 2), ("other", 1, 1), ("free", 0, 1)], shares
        assert refused(pushing(client, "other/one", b"x"))[2:] == ("blobs", 1)
        assert status_of(client)["uploads"] == (serve is STUB)
        # A blob counts until no repository of the tenant has it.
        for repo, status in (("acme/one", 403), ("acme/two", 201)):
            assert client.ask("DELETE", f"/v2/{repo}/blobs/{sha256(b'a')}").status == 202
            assert pushing(client, "acme/two", b"c").status == status, repo


def a_full_share_keeps_the_upload(serve):
    """A close that is refused leaves the upload without its last piece, from which the client can continue later."""
    with serve(*NO_SWEEP, tenants=["acme=100000000,1"]) as server:
        client, data = server.client(), random.Random(1).randbytes(2 * MIB + 7)
        push(client, "acme/one", b"a")
        at = opened(client)
        assert client.ask("PATCH", at, data[:MIB + 3], PATCH).status == 202
        def close(start):
            rest = {**PATCH, "Content-Range": f"{start}-{len(data) - 1}"}
            return client.ask("PUT", f"{at}?digest={sha256(data)}", data[start:], rest)
        received = lambda: int(client.ask("GET", at)["Range"].split("-")[1]) + 1
        assert refused(close(MIB + 3)) == (403, "DENIED", "blobs", 1)
        start = received()
        assert MIB + 3 < start < len(data), start
        assert refused(close(start)) == (403, "DENIED", "blobs", 1) and received() == start
        # A wrong digest is reported before a full share.
        wrong = client.ask("PUT", f"{at}?digest={sha256(b'wrong')}")
        assert serve is STUB or (wrong.status, wrong.code()) == (400, "DIGEST_INVALID"), wrong.body
        assert client.ask("DELETE", f"/v2/acme/one/blobs/{sha256(b'a')}").status == 202
        assert close(start).status == 201
        assert client.ask("GET", f"/v2/acme/one/blobs/{sha256(data)}").body == data


def a_push_that_finds_no_free_slot_waits_for_a_sweep():
    """The stub refuses the first close, or the first two. The push holds no connection to the store while it waits."""
    data = random.Random(2).randbytes(3 * MIB + 5)
    for times, status in ((1, 201), (2, 507)):
        with serving_stub({CLOSE: {"status": STORE_FULL, "times": times}}, "--lines", "1", *NO_SWEEP) as server:
            client = server.client()
            answer = pushing(client, "acme/one", data)
            assert answer.status == status, answer.body
            made = calls(server)
            # One sweep is that of the start.
            assert (made[CLOSE], made[SWEEP]) == (2, 2), made
            assert status == 507 or client.ask("GET", f"/v2/acme/one/blobs/{sha256(data)}").body == data
            assert status == 201 or (answer.code(), answer["Retry-After"]) == ("UNSUPPORTED", "1")


def an_upload_is_there_after_two_refusals():
    with serving_stub({CLOSE: {"status": STORE_FULL, "times": 2}}, *NO_SWEEP) as server:
        client, at = server.client(), opened(server.client())
        assert client.ask("PATCH", at, b"abc", PATCH).status == 202
        close = lambda: client.ask("PUT", f"{at}?digest={sha256(b'abcdef')}", b"def", PATCH)
        assert close().status == 507 and client.ask("GET", at)["Range"] == "0-2"
        assert close().status == 201
        assert client.ask("GET", f"/v2/acme/one/blobs/{sha256(b'abcdef')}").body == b"abcdef"


def a_sweep_serves_all_pushes_that_wait():
    """Sweeps that free nothing have a pause, so many pushes that find no slot make few sweeps."""
    with serving_stub({CLOSE: {"status": STORE_FULL}, SWEEP: {"slow": 0.3}}, *NO_SWEEP) as server:
        statuses = []
        threads = [threading.Thread(target=lambda: statuses.append(pushing(server.client(), "acme/one", b"x").status)) for _ in range(12)]
        for thread in threads:
            thread.start()
        for thread in threads:
            thread.join()
        assert statuses == [507] * 12, statuses
        assert calls(server)[CLOSE] == 24 and 2 <= calls(server)[SWEEP] <= 5, calls(server)


def a_deleted_blob_makes_room_at_once():
    with serving("--slots", "2", *NO_SWEEP) as server:
        client = server.client()
        for data in (b"a", b"b"):
            push(client, "acme/one", data)
        full = pushing(client, "other/one", b"c")
        assert (full.status, full.code()) == (507, "UNSUPPORTED"), full.body
        assert client.ask("DELETE", f"/v2/acme/one/blobs/{sha256(b'a')}").status == 202
        assert server.metric("registryd_free_slots") == 0
        push(client, "other/one", b"c")
        assert (server.metric("registryd_freed_slots_total"), server.metric("registryd_free_slots")) == (1, 0)


def manifests_and_tags_have_bounds(serve):
    with serve("--manifests", "3", "--manifest-bytes", "400", "--tags", "2") as server:
        client = server.client()
        first, second, third = (index_of(length) for length in (100, 101, 102))
        for tag, content in (("v1", first), ("v1", first), ("v2", second)):
            assert putting(client, "acme/one", tag, content).status == 201, tag
        answer = putting(client, "acme/one", "v3", third)
        assert refused(answer) == (403, "DENIED", "tenant_tags", 2), answer.body
        assert refused(putting(client, "acme/two", "v1", third))[2:] == ("tenant_tags", 2)
        assert by_digest(client, "acme/two", third).status == 201
        assert totals_of(client, "acme") == (3, 303, 2), totals_of(client, "acme")
        # What the repository has needs no room: a tag moves, and a manifest is pushed again.
        assert putting(client, "acme/one", "v1", second).status == putting(client, "acme/one", "v1", first).status == 201
        assert by_digest(client, "acme/one", first).status == 201
        # The same manifest in another repository is stored again.
        for repo in ("acme/one", "acme/three"):
            answer = by_digest(client, repo, index_of(40))
            assert refused(answer) == (403, "DENIED", "tenant_manifests", 3) and b"tenant acme" in answer.body, answer.body
        assert refused(by_digest(client, "acme/three", first))[2:] == ("tenant_manifests", 3)
        assert putting(client, "other/one", "v1", first).status == 201
        assert client.ask("DELETE", f"/v2/acme/two/manifests/{sha256(third)}").status == 202
        answer = by_digest(client, "acme/two", index_of(200))
        assert refused(answer) == (403, "DENIED", "tenant_manifest_bytes", 400), answer.body
        assert json.loads(answer.body)["errors"][0]["detail"]["used"] == 201
        assert by_digest(client, "acme/two", index_of(199)).status == 201
        assert client.ask("DELETE", "/v2/acme/one/manifests/v1").status == 202
        assert putting(client, "acme/one", "v3", second).status == 201
        assert totals_of(client, "acme") == (3, 400, 2) and totals_of(client, "other") == (1, 100, 1)
        assert status_of(client)["bounds"] == {"manifests": 3, "manifest_bytes": 400, "tags": 2}
        assert client.ask("DELETE", f"/v2/acme/one/manifests/{sha256(second)}").status == 202
        assert totals_of(client, "acme") == (2, 299, 0), totals_of(client, "acme")
    with serve() as server:
        assert status_of(server.client())["bounds"] == {"manifests": None, "manifest_bytes": None, "tags": None}


def content_that_exceeds_a_bound_is_not_read(serve):
    with serve("--manifests", "1", "--manifest-bytes", "200", "--tags", "1") as server:
        client = server.client()
        assert putting(client, "acme/one", "v1", index_of(100)).status == 201
        # A manifest of another length is another one, and a second tag is one too many. Each fails before its content is sent.
        for reference, length in (("v1", 101), ("v2", 100), (sha256(index_of(101)), 101), ("v1", 4 * MIB)):
            line = server.socket()
            line.sendall(head_of("PUT", f"acme/one/manifests/{reference}", Content_Length=length, Content_Type=INDEX))
            line.settimeout(5)
            assert line.recv(1000).startswith(b"HTTP/1.1 403"), (reference, length)
            line.close()
        # If the length is that of a manifest or is not known, the content decides.
        other = index_of(99) + b"\n"
        assert refused(putting(client, "acme/one", "v1", other))[2:] == ("tenant_manifests", 1)
        chunked = {"Content-Type": INDEX, "Transfer-Encoding": "chunked"}
        for content, status in ((other, 403), (index_of(100), 201)):
            assert client.ask("PUT", "/v2/acme/one/manifests/v1", iter([content]), chunked).status == status
        assert totals_of(client, "acme") == (1, 100, 1)


def pushes_at_the_same_time_exceed_no_bound(serve, *words):
    """Pushes to several repositories fill the bound, and no more."""
    with serve("--manifests", "10", "--tags", "7", *words) as server:
        for count, reference, most in ((30, lambda number, content: f"v{number}", 7), (30, lambda number, content: sha256(content), 10)):
            statuses, start = [], threading.Barrier(count)
            def put(number):
                content, client = index_of(100 + number), server.client()
                start.wait()
                statuses.append(putting(client, f"acme/r{number % 4}", reference(number, content), content).status)
            threads = [threading.Thread(target=put, args=[number]) for number in range(count)]
            for thread in threads:
                thread.start()
            for thread in threads:
                thread.join()
            manifests, _, tags = totals_of(server.client(), "acme")
            assert set(statuses) == {201, 403} and (tags, manifests) == (7, most), (statuses, tags, manifests)
            stored = [repo["manifests"] for repo in status_of(server.client(), "?tenant=acme")["repositories"]]
            assert sum(stored) == most, stored


def a_push_that_fails_needs_no_room():
    """The store refuses the first manifest. Its room is that of the next one."""
    with serving_stub({PUT_MANIFEST: {"status": 10, "times": 1}}, "--manifests", "1", "--tags", "1") as server:
        client = server.client()
        answer = putting(client, "acme/one", "v1", index_of(100))
        assert (answer.status, answer.code()) == (404, "MANIFEST_BLOB_UNKNOWN"), answer.body
        assert totals_of(client, "acme") == (0, 0, 0)
        assert putting(client, "acme/two", "v2", index_of(101)).status == 201


def totals_are_the_same_after_a_restart():
    """A start with smaller bounds deletes nothing and takes nothing new."""
    with folder() as path:
        with serving("--data", path) as server:
            client = server.client()
            sizes = [len(pushed(client, tag=f"v{number}", layer=b"layer %d" % number)) for number in range(3)]
            gone = pushed(client, "acme/two", "v1", b"gone")
            assert client.ask("DELETE", f"/v2/acme/two/manifests/{sha256(gone)}").status == 202
            before = totals_of(client, "acme")
            assert before == (3, sum(sizes), 3), before
            by_kill_of_both(server)
        for words, limit in ((["--manifests", "2"], "tenant_manifests"), (["--tags", "1"], "tenant_tags"), (["--manifest-bytes", "5"], "tenant_manifest_bytes")):
            with serving("--data", path, *words) as server:
                client = server.client()
                assert totals_of(client, "acme") == before, words
                push_manifest(client, "acme/one", "v0", manifest_of(b"{}", [b"layer 1"]))
                assert refused(putting(client, "acme/one", "v9", index_of(50)))[2] == limit, words
                by_signal(server)


def a_smaller_share_needs_other_settings():
    with folder() as path:
        with serving("--data", path, tenants=["acme=1000000,3"]) as server:
            for data in (b"a", b"b", b"c"):
                push(server.client(), "acme/one", data)
            by_signal(server)
        check(ended("--data", path, tenants=["acme=1000000,2"]), 10, "the log needs other settings", "acme: the tenant's number of blobs is too small")
        with serving("--data", path, tenants=["acme=1000000,3"]) as server:
            client = server.client()
            assert refused(pushing(client, "acme/one", b"d"))[2:] == ("blobs", 3)
            # What was there for a time does not count.
            assert client.ask("DELETE", f"/v2/acme/one/blobs/{sha256(b'a')}").status == 202
            by_signal(server)
        with serving("--data", path, tenants=["acme=1000000,2"]) as server:
            assert tenant_of(status_of(server.client()), "acme")["blobs"] == 2
            by_signal(server)
        with serving("--data", path) as server:
            push(server.client(), "acme/one", b"d")
            assert tenant_of(status_of(server.client()), "acme")["share"] == 65536


def tenants_share_the_slots_by_default(serve):
    with serve("--slots", "5", *NO_SWEEP, tenants=("acme=1000000", "other=1000000")) as server:
        client = server.client()
        for data in (b"a", b"b"):
            push(client, "acme/one", data)
        assert refused(pushing(client, "acme/one", b"c")) == (403, "DENIED", "blobs", 2)
        for data in (b"c", b"d"):
            push(client, "other/one", data)
        assert "the shares together exceed" not in server.logged()
    with serve("--slots", "5", *NO_SWEEP, tenants=("acme=1000000,4", "other=1125899906842624")) as server:
        assert [tenant_of(status_of(server.client()), name)["share"] for name in ("acme", "other")] == [4, 2]
        for words in ("the shares together exceed the slots", "the quotas together exceed the "):
            assert words in server.logged(), server.logged()
    with serve("--slots", "5", *NO_SWEEP, tenants=["acme=1000000"]) as server:
        assert tenant_of(status_of(server.client()), "acme")["share"] is None
        assert "together exceed" not in server.logged(), server.logged()


def manifests_are_bounded_by_default(serve):
    """A tenant with a small quota may have 16 MiB of manifests, and one with a large quota a tenth of it."""
    with serve(tenants=("acme=100", "other=1000000000")) as server:
        client = server.client()
        for number in range(4):
            assert by_digest(client, "acme/one", index_of(4 * MIB - number)).status == 201, number
        answer = by_digest(client, "acme/two", index_of(4 * MIB - 4))
        assert refused(answer) == (403, "DENIED", "tenant_manifest_bytes", 16 * MIB), answer.body
        assert by_digest(client, "other/one", index_of(4 * MIB)).status == 201
        most = [tenant_of(status_of(client), name)["most_manifest_bytes"] for name in ("acme", "other")]
        assert most == [16 * MIB, 100_000_000], most
    with serve("--manifest-bytes", "200", tenants=("acme=100", "other=1000000000")) as server:
        assert [tenant_of(status_of(server.client()), name)["most_manifest_bytes"] for name in ("acme", "other")] == [200, 200]


def a_folder_with_more_manifests_than_the_default_takes_more():
    with folder() as path:
        large = [index_of(4 * MIB - number) for number in range(6)]
        with serving("--data", path, "--manifest-bytes", "100000000", tenants=["acme=100"]) as server:
            for content in large[:5]:
                assert by_digest(server.client(), "acme/one", content).status == 201
            by_signal(server)
        with serving("--data", path, tenants=["acme=100"]) as server:
            client = server.client()
            assert "the tenant has more bytes of manifests than the default" in server.logged()
            assert tenant_of(status_of(client), "acme")["most_manifest_bytes"] is None
            assert by_digest(client, "acme/one", large[5]).status == 201


def a_folder_with_more_blobs_than_a_default_share_starts():
    """The tenant is not limited, as before, and the others have the default share."""
    with folder() as path:
        with serving("--data", path, "--slots", "4", *NO_SWEEP, tenants=["acme=1000000"]) as server:
            for data in (b"a", b"b", b"c"):
                push(server.client(), "acme/one", data)
            by_signal(server)
        for count in range(2):
            with serving("--data", path, "--slots", "5", *NO_SWEEP, tenants=["acme=1000000", "other=1000"]) as server:
                client = server.client()
                assert "the tenant has more blobs than the default share" in server.logged() and "acme=1000000,BLOBS" in server.logged()
                assert [tenant_of(status_of(client), name)["share"] for name in ("acme", "other")] == [None, 2]
                push(client, "acme/one", b"d")
                assert client.ask("GET", f"/v2/acme/one/blobs/{sha256(b'b')}").body == b"b"
                by_kill_of_both(server)
        with serving("--data", path, "--slots", "4", tenants=["acme=1000000,4", "other=1000"]) as server:
            assert refused(pushing(server.client(), "acme/one", b"e")) == (403, "DENIED", "blobs", 4)
            assert "more blobs than the default" not in server.logged()
            for data in (b"b", b"c", b"d"):
                assert server.client().ask("DELETE", f"/v2/acme/one/blobs/{sha256(data)}").status == 202
            by_signal(server)
        with serving("--data", path, "--slots", "4", tenants=["acme=1000000", "other=1000"]) as server:
            assert tenant_of(status_of(server.client()), "acme")["share"] == 2


WITH_EITHER = [tenants_share_the_slots_by_default, manifests_are_bounded_by_default, a_full_share_leaves_slots_for_others, a_full_share_keeps_the_upload, manifests_and_tags_have_bounds,
               content_that_exceeds_a_bound_is_not_read, pushes_at_the_same_time_exceed_no_bound]
WITH_STUB = [a_push_that_finds_no_free_slot_waits_for_a_sweep, an_upload_is_there_after_two_refusals, a_sweep_serves_all_pushes_that_wait,
             a_push_that_fails_needs_no_room]
WITH_STORE = [a_deleted_blob_makes_room_at_once, totals_are_the_same_after_a_restart, a_smaller_share_needs_other_settings,
              a_folder_with_more_blobs_than_a_default_share_starts, a_folder_with_more_manifests_than_the_default_takes_more]


def with_a_folder():
    with folder() as path:
        pushes_at_the_same_time_exceed_no_bound(serving, "--data", path)


def main():
    if sys.argv[1:] == ["--stub"]:
        play("shares", [*((test, STUB) for test in WITH_EITHER), *WITH_STUB])
    play("shares", [*((test, serving) for test in WITH_EITHER), *WITH_STUB, *WITH_STORE, with_a_folder])


if __name__ == "__main__":
    main()
