#!/usr/bin/env python3
"""Tests tenants that are mirrors of Debian's docker-registry: pulls by skopeo and docker, many clients for one blob, faults of the upstream (cut
connections, wrong digests, slow bytes, rate limits, expired tokens, an upstream that is down), room within the quota, kills, restarts,
and copies of everything at intervals."""
import concurrent.futures, contextlib, http.client, json, os, random, shutil, ssl, subprocess, sys, tempfile, threading, time

from clients import Docker, run
from hardships import played
from images import image, same_blobs, skopeo
from limits import users
from playing import until
from receivers import Receiver, brief, receivers_file
from restarts import by_kill_of_both, by_signal, folder, push, push_manifest
from rights import write
from server import INDEX, MANIFEST, Client, manifest_of, serving, sha256
from statuses import check, ended
from upstreams import PASSWORD, USER, basic, theirs

LONG = 3600
TENANT = ("hub=1000000000",)


@contextlib.contextmanager
def mirroring(proxy, *words, tenants=TENANT, tag_s=0, timeout_s=20):
    """Starts a registry whose tenant `hub` is a mirror of what is behind the proxy."""
    times = ["--mirror-tag-s", str(tag_s), "--mirror-timeout-s", str(timeout_s)]
    with serving("--mirror-of", f"hub=http://{proxy.address}", *times, *words, tenants=tenants) as server:
        yield server


def noise(size, seed):
    return random.Random(seed).randbytes(size)


def push_image(upstream, repo, tag, *layers, config=b"{}"):
    """Pushes an image to the upstream, and returns its manifest."""
    for data in (config, *layers):
        upstream.push(repo, data)
    content = manifest_of(config, layers)
    upstream.put(repo, tag, content, MANIFEST)
    return content


def get(server, path, headers=(), method="GET"):
    return server.client().ask(method, f"/v2/hub/{path}", headers=headers)


def blob(server, data, repo="app", **words):
    return get(server, f"{repo}/blobs/{sha256(data)}", **words)


def is_cut(server, data, repo="app"):
    """Returns whether a response with a blob ends before its end."""
    try:
        answer = server.client().ask_once("GET", f"/v2/hub/{repo}/blobs/{sha256(data)}")
    except (http.client.IncompleteRead, ConnectionResetError) as error:
        assert len(getattr(error, "partial", b"")) < len(data)
        return True
    return answer.body != data and answer.status != 200


def state(server, tenant="hub"):
    status = json.loads(server.client().ask("GET", "/status").body)
    return next(one["mirror"] for one in status["tenants"] if one["name"] == tenant)


def metric(server, name):
    return server.metric(f'registryd_mirror_{name}_total{{tenant="hub"}}')


def used(server):
    return server.metric('registryd_tenant_used_bytes{tenant="hub"}')


def is_stored(server, digest):
    """Waits until the mirror has the manifest itself, which needs all its blobs."""
    def has():
        page = json.loads(server.client().ask("GET", "/status?tenant=hub").body)
        return any(digest == tag["digest"] for repo in page["repositories"] for tag in repo["tags"])
    return until(has, 30)


def an_image_comes_through():
    with theirs() as (upstream, proxy), tempfile.TemporaryDirectory() as top, folder() as path:
        digest = image(f"{top}/one", [1000, 3_000_000], 1)
        skopeo("copy", "--dest-tls-verify=false", f"oci:{top}/one:latest", f"docker://{upstream.address}/library/app:v1")
        with mirroring(proxy, "--data", path, tag_s=LONG) as server:
            at = f"docker://{server.address}/hub/library/app"
            skopeo("copy", "--src-tls-verify=false", f"{at}:v1", f"oci:{top}/first:latest")
            same_blobs(f"{top}/one", f"{top}/first")
            assert is_stored(server, digest)
            asked = len(proxy.asked)
            for number, reference in enumerate((":v1", f"@{digest}")):
                skopeo("copy", "--src-tls-verify=false", at + reference, f"oci:{top}/again-{number}:latest")
                same_blobs(f"{top}/one", f"{top}/again-{number}")
            # A tag is believed for an hour, and each blob came once.
            assert len(proxy.asked) == asked, proxy.asked[asked:]
            assert proxy.count("GET", "/blobs/") == 3 and proxy.count("GET", "/manifests/") == 1, proxy.asked
            now = state(server)
            assert now["upstream"] == f"http://{proxy.address}" and now["copies"] == 4 and now["last_failure"] is None, now
            assert metric(server, "fetched_bytes") >= 3_001_000 and metric(server, "hits") > 0 and metric(server, "misses") > 0
            by_signal(server)
        upstream.stop()
        with mirroring(proxy, "--data", path) as server:
            at = f"docker://{server.address}/hub/library/app"
            skopeo("copy", "--src-tls-verify=false", f"{at}:v1", f"oci:{top}/last:latest")
            same_blobs(f"{top}/one", f"{top}/last")
            assert "502" in state(server)["last_failure"]["why"] or state(server)["failures"] > 0
            # What is not here fails, and says why.
            answer = get(server, "library/other/manifests/v1")
            assert answer.status == 502 and b"the upstream of this mirror failed" in answer.body, answer.body


def docker_pulls():
    if os.geteuid() != 0 or not shutil.which("dockerd"):
        print("mirror: left out: docker (it wants root and dockerd)")
        return
    with theirs() as (upstream, proxy), tempfile.TemporaryDirectory() as top, mirroring(proxy) as server:
        digest = image(f"{top}/one", [1000, 2_000_000], 1)
        skopeo("copy", "--dest-tls-verify=false", f"oci:{top}/one:latest", f"docker://{upstream.address}/library/app:v1")
        os.mkdir(f"{top}/docker")
        try:
            docker = Docker(f"{top}/docker")
        except SystemExit:
            print("mirror: left out: docker (its daemon cannot be started)")
            return
        try:
            name = f"{server.address}/hub/library/app"
            for reference in (":v1", f"@{digest}"):
                run(*docker.words, "pull", "-q", name + reference)
            assert run(*docker.words, "image", "inspect", "--format", "{{index .RepoDigests 0}}", f"{name}:v1") == f"{name}@{digest}"
        finally:
            docker.end()
        assert is_stored(server, digest) and proxy.count("GET", "/blobs/") == 3


def an_index_and_its_images_come():
    with theirs() as (upstream, proxy), mirroring(proxy, tag_s=LONG) as server:
        images = [push_image(upstream, "app", f"part-{number}", noise(1000, number)) for number in range(2)]
        parts = ",".join('{"mediaType":"%s","digest":"%s","size":%d}' % (MANIFEST, sha256(one), len(one)) for one in images)
        index = ('{"schemaVersion":2,"mediaType":"%s","manifests":[%s]}' % (INDEX, parts)).encode()
        upstream.put("app", "all", index, INDEX)
        for method in ("HEAD", "GET"):
            answer = get(server, "app/manifests/all", method=method)
            assert (answer.status, answer["Docker-Content-Digest"], answer["Content-Type"]) == (200, sha256(index), INDEX)
        assert answer.body == index
        # Only the image that is asked for comes, and a look at it fetches no blob.
        one = get(server, f"app/manifests/{sha256(images[1])}", method="HEAD")
        assert (one.status, one["Content-Length"], proxy.count("GET", "/blobs/")) == (200, str(len(images[1])), 0)
        assert get(server, f"app/manifests/{sha256(images[1])}").body == images[1]
        assert until(lambda: state(server)["copies"] == 4, 30), state(server)
        assert json.loads(get(server, "app/tags/list").body)["tags"] == ["all", "part-0", "part-1"]
        assert json.loads(get(server, "app/tags/list?n=1&last=all").body)["tags"] == ["part-0"]
        for path in ("app/manifests/none", f"app/manifests/{sha256(b'none')}", f"app/blobs/{sha256(b'none')}", "none/manifests/v1"):
            for method in ("GET", "HEAD"):
                assert get(server, path, method=method).status == 404, path
        for path, status in (("app/manifests/sha256:0", 400), ("app/blobs/sha256:0", 400), ("App/manifests/v1", 404),
                             (f"App/blobs/{sha256(b'none')}", 400), ("app%3Fx/manifests/v1", 404), ("app%2F..%2Fapp/tags/list", 404),
                             ("app/manifests/v1%3Fx", 404), ("app/manifests/..", 404)):
            asked = len(proxy.asked)
            assert get(server, path).status == status and len(proxy.asked) == asked, (path, get(server, path).status)


def nothing_is_pushed_into_it():
    with theirs() as (upstream, proxy), tempfile.TemporaryDirectory() as top:
        with mirroring(proxy, tenants=(*TENANT, "acme=1000000")) as server:
            client = server.client()
            content = manifest_of(b"{}", [])
            for method, path in (("POST", "app/blobs/uploads/"), ("POST", f"app/blobs/uploads/?mount={sha256(b'{}')}&from=acme/app"),
                                 ("PUT", "app/manifests/v1"), ("PATCH", "app/blobs/uploads/x"), ("PUT", "app/blobs/uploads/x")):
                answer = client.ask(method, f"/v2/hub/{path}", content)
                assert (answer.status, answer.code()) == (405, "DENIED"), (path, answer.status)
                assert f"tenant hub is a mirror of http://{proxy.address}: push there".encode() in answer.body and "Allow" in answer.headers
            push(client, "acme/app", b"{}")
            push_manifest(client, "acme/app", "v1", content)
            image(f"{top}/one", [1000], 1)
            try:
                skopeo("copy", "--dest-tls-verify=false", f"oci:{top}/one:latest", f"docker://{server.address}/hub/app:v1")
            except AssertionError as error:
                assert "is a mirror of" in str(error), error
            else:
                raise AssertionError("skopeo pushes into a mirror")


def one_fetch_is_for_all_clients():
    clients, data = 100, noise(4_000_000, 1)
    with theirs() as (upstream, proxy), mirroring(proxy) as server:
        upstream.push("app", data)
        proxy.pause = 0.02
        begun, ends, lock = [], [], threading.Lock()
        def pull():
            connection = http.client.HTTPConnection(server.address, timeout=120)
            connection.request("GET", f"/v2/hub/app/blobs/{sha256(data)}")
            response = connection.getresponse()
            first = response.read(1)
            with lock:
                begun.append(time.monotonic())
            rest = response.read()
            with lock:
                ends.append(time.monotonic())
            return response.status, first + rest == data
        with concurrent.futures.ThreadPoolExecutor(clients) as pool:
            answers = list(pool.map(lambda _: pull(), range(clients)))
        assert answers == clients * [(200, True)]
        assert proxy.count("GET", "/blobs/") == 1, proxy.count("GET", "/blobs/")
        # They got bytes long before the last one came.
        assert min(ends) - min(begun) > 0.3, min(ends) - min(begun)
        assert until(lambda: state(server)["copies"] == 1 and state(server)["fetches"] == 0)
        assert blob(server, data).body == data and proxy.count("GET", "/blobs/") == 1


def a_wrong_digest_is_never_complete():
    small, long = noise(1000, 1), noise(3_000_000, 2)
    with theirs() as (upstream, proxy), mirroring(proxy) as server:
        content = push_image(upstream, "app", "v1", small, long)
        proxy.flip = True
        answer = blob(server, small)
        assert answer.status == 502 and b"another digest" in answer.body, answer.body
        assert is_cut(server, long)
        answer = get(server, f"app/manifests/{sha256(content)}")
        assert answer.status == 502 and b"another digest" in answer.body, answer.body
        # The upstream says which digest the tag has.
        assert get(server, "app/manifests/v1").status == 502
        with concurrent.futures.ThreadPoolExecutor(10) as pool:
            assert all(pool.map(lambda _: is_cut(server, long), range(10)))
        assert until(lambda: used(server) == 0), used(server)
        assert until(lambda: server.metric("registryd_uploads") == 0 and state(server)["copies"] == 0)
        assert "another digest" in state(server)["last_failure"]["why"]
        proxy.heal()
        assert blob(server, small).body == small and blob(server, long).body == long
        assert get(server, "app/manifests/v1").body == content


def a_cut_response_is_cut():
    small, long = noise(100_000, 1), noise(3_000_000, 2)
    with theirs() as (upstream, proxy), mirroring(proxy) as server:
        content = push_image(upstream, "app", "v1", small, long)
        proxy.cut, proxy.only = 2_000_000, "/blobs/"
        assert is_cut(server, long)
        proxy.cut = 50_000
        assert blob(server, small).status == 502
        assert is_cut(server, long)
        proxy.cut, proxy.only = 100, "/manifests/"
        assert get(server, "app/manifests/v1").status == 502
        assert until(lambda: used(server) == 0) and server.metric("registryd_uploads") == 0
        assert state(server)["failures"] >= 4 and metric(server, "failures") >= 4
        proxy.heal()
        for data in (small, long):
            assert blob(server, data).body == data
        assert get(server, "app/manifests/v1").body == content


def content_without_a_length_is_checked():
    small, long = noise(1000, 1), noise(2_000_000, 2)
    with theirs() as (upstream, proxy), mirroring(proxy) as server:
        for data in (small, long):
            upstream.push("app", data)
        proxy.chunked, proxy.flip = True, True
        assert blob(server, small).status == 502 and is_cut(server, long)
        proxy.flip = False
        for data in (small, long):
            # From the upstream, and from the store.
            for _ in range(2):
                assert blob(server, data).body == data
        assert until(lambda: state(server)["copies"] == 2)


def one_that_is_down_is_not_asked_at_once():
    data = noise(1000, 1)
    with theirs() as (upstream, proxy), mirroring(proxy) as server:
        upstream.push("app", data)
        proxy.drop = True
        begun = time.monotonic()
        assert blob(server, data).status == 502
        asked = len(proxy.asked)
        for _ in range(5):
            assert blob(server, data).status == 502
        if time.monotonic() - begun < 4:
            assert len(proxy.asked) == asked
        proxy.heal()
        assert until(lambda: blob(server, data).status == 200, 30)


def clients_at_once_get_what_they_ask_for():
    """Some images fit into the quota, and many clients pull more. Copies are deleted while they are read, and fetched again."""
    layers = [noise(200_000 + number, number) for number in range(10)]
    with theirs() as (upstream, proxy), mirroring(proxy, "--sweep-ms", "10", tenants=("hub=1000000",), tag_s=1) as server:
        contents = [push_image(upstream, "app", f"v{number}", data) for number, data in enumerate(layers)]
        def pull(seed):
            choose, client = random.Random(seed), server.client()
            for _ in range(15):
                number = choose.randrange(len(layers))
                got = client.ask("GET", f"/v2/hub/app/manifests/v{number}")
                assert got.status == 200 and got.body == contents[number], (got.status, got.body)
                got = client.ask("GET", f"/v2/hub/app/blobs/{sha256(layers[number])}")
                assert got.status == 200 and got.body == layers[number], (got.status, got.body[:200])
        with concurrent.futures.ThreadPoolExecutor(12) as pool:
            list(pool.map(pull, range(12)))
        assert until(lambda: used(server) <= 1_000_000 and server.metric("registryd_uploads") == 0 and state(server)["fetches"] == 0)
        assert metric(server, "evicted") > 0


def fetches_at_once_are_bounded():
    layers = [noise(200_000, number) for number in range(40)]
    with theirs() as (upstream, proxy), mirroring(proxy) as server:
        for data in layers:
            upstream.push("app", data)
        proxy.pause = 0.1
        with concurrent.futures.ThreadPoolExecutor(40) as pool:
            assert list(pool.map(lambda data: blob(server, data).body == data, layers)) == 40 * [True]
        assert 1 < proxy.most_sending <= 24, proxy.most_sending


def an_immutable_tag_holds_its_copy():
    layers = [noise(300_000, number) for number in range(4)]
    with theirs() as (upstream, proxy), users("hub v0") as file, mirroring(proxy, "--immutable-tags", file, tenants=("hub=1000000",)) as server:
        contents = [push_image(upstream, "app", f"v{number}", data) for number, data in enumerate(layers)]
        for number, content in enumerate(contents):
            assert get(server, f"app/manifests/v{number}").body == content and is_stored(server, sha256(content))
        assert metric(server, "evicted") > 0
        upstream.put("app", "v0", contents[3], MANIFEST)
        asked = len(proxy.asked)
        assert get(server, "app/manifests/v0").body == contents[0] and blob(server, layers[0]).body == layers[0]
        assert len(proxy.asked) == asked


def slow_bytes_end():
    small, long = noise(300_000, 1), noise(3_000_000, 2)
    with theirs() as (upstream, proxy), mirroring(proxy, timeout_s=3) as server:
        content = push_image(upstream, "app", "v1", small, long)
        proxy.stall = 200_000
        begun = time.monotonic()
        answer = blob(server, small)
        assert answer.status == 502 and b"no byte of its response in 3 s" in answer.body, answer.body
        proxy.stall = 2_000_000
        assert is_cut(server, long)
        assert time.monotonic() - begun < 40
        # A slow upstream that sends bytes is waited for.
        proxy.heal()
        proxy.pause = 0.6
        assert blob(server, small).body == small
        proxy.heal()
        proxy.stall = 10
        assert get(server, "app/manifests/v1").status == 502
        proxy.heal()
        assert get(server, "app/manifests/v1").body == content and blob(server, long).body == long


def a_rate_limit_is_kept():
    data, other = noise(1000, 1), noise(1000, 2)
    with theirs() as (upstream, proxy), mirroring(proxy) as server:
        content = push_image(upstream, "app", "v1", data)
        upstream.push("app", other)
        assert get(server, "app/manifests/v1").body == content and is_stored(server, sha256(content))
        proxy.limit = 3
        # What is here is served, and the upstream is asked once.
        assert get(server, "app/manifests/v1").body == content
        asked, begun = len(proxy.asked), time.monotonic()
        answer = blob(server, other)
        assert (answer.status, answer.code()) == (429, "TOOMANYREQUESTS") and 1 <= int(answer["Retry-After"]) <= 4
        for _ in range(20):
            assert get(server, "app/manifests/v1").body == content and get(server, "app/manifests/v2").status == 429
        if time.monotonic() - begun < 2:
            assert len(proxy.asked) == asked, proxy.asked[asked:]
            assert state(server)["limited_for"] in (1, 2, 3, 4), state(server)
        assert metric(server, "limited") >= 1
        proxy.heal()
        assert until(lambda: blob(server, other).status == 200, 30) and blob(server, other).body == other
        assert state(server)["limited_for"] is None


def tokens_are_renewed():
    layers = [noise(1000, number) for number in range(5)]
    with theirs() as (upstream, proxy), users(f"# comment\nhub {USER}:{PASSWORD}") as file:
        content = push_image(upstream, "app", "v1", layers[0])
        for data in layers[1:]:
            upstream.push("app", data)
        proxy.tokens, proxy.user = 1000, basic(USER, PASSWORD)
        with mirroring(proxy, "--mirror-credentials", file) as server:
            assert get(server, "app/manifests/v1").body == content
            for data in layers[:2]:
                assert blob(server, data).body == data
            assert proxy.issued == 1, proxy.issued
            # The server of tokens says more than is true.
            with proxy.lock:
                proxy.valid.clear()
            assert blob(server, layers[2]).body == layers[2] and proxy.issued >= 2
            proxy.tokens, proxy.told = 0, 1000
            with proxy.lock:
                proxy.valid.clear()
            assert blob(server, noise(10, 9)).status == 403
            proxy.tokens, proxy.told = 1000, None
            write(file, f"hub {USER}:other")
            server.reload("read the credentials of mirrors again")
            with proxy.lock:
                proxy.valid.clear()
            answer = get(server, "other/manifests/v1")
            assert (answer.status, answer.code()) == (403, "DENIED"), answer.body
            # What is here needs no token.
            assert until(lambda: get(server, "app/manifests/v1").body == content)
            write(file, "hub nothing")
            server.reload("line 1: not TENANT USER:PASSWORD: kept the credentials")
            assert "nothing" not in server.logged()
            # A user's password is in no log and no page.
            assert PASSWORD not in server.logged() and PASSWORD not in json.dumps(state(server))


def a_password_is_used():
    data = noise(1000, 1)
    with theirs(has_users=True) as (upstream, _), users(f"hub {USER}:{PASSWORD}") as file:
        content = push_image(upstream, "app", "v1", data)
        with mirroring(upstream, "--mirror-credentials", file) as server:
            assert get(server, "app/manifests/v1").body == content and blob(server, data).body == data
        with mirroring(upstream) as server:
            assert get(server, "app/manifests/v1").status == 403
            assert "does not let the mirror read" in state(server)["last_failure"]["why"]


def redirects_are_followed():
    data, long = noise(1000, 1), noise(2_000_000, 2)
    with theirs(has_users=True) as (upstream, other), theirs() as (_, proxy), users(f"hub {USER}:{PASSWORD}") as file:
        for one in (data, long):
            upstream.push("app", one)
        proxy.tokens = 1000
        proxy.moved, proxy.only = other.address, "/blobs/"
        with mirroring(proxy, "--mirror-credentials", file) as server:
            assert blob(server, data).body == data and blob(server, long).body == long
            # The other host gets no token and no password.
            assert other.asked and all("Authorization" not in headers for _, _, headers in other.asked)
            other.moved = other.address
            answer = blob(server, b"nowhere")
            assert answer.status == 502 and b"too many redirects" in answer.body, answer.body


def a_tag_moves_after_its_time():
    with theirs() as (upstream, proxy):
        one, two = [push_image(upstream, "app", "v1", noise(1000, number)) for number in (1, 2)]
        upstream.put("app", "v1", one, MANIFEST)
        with mirroring(proxy, tag_s=2) as server:
            assert get(server, "app/manifests/v1").body == one and is_stored(server, sha256(one))
            upstream.put("app", "v1", two, MANIFEST)
            asked = len(proxy.asked)
            if get(server, "app/manifests/v1").body == one:
                assert len(proxy.asked) == asked
            assert until(lambda: get(server, "app/manifests/v1").body == two, 30) and is_stored(server, sha256(two))
            # A tag that stays costs one HEAD.
            time.sleep(2.1)
            before = proxy.count("HEAD", "/manifests/v1"), proxy.count("GET", "/manifests/v1")
            assert get(server, "app/manifests/v1").body == two
            assert (proxy.count("HEAD", "/manifests/v1"), proxy.count("GET", "/manifests/v1")) == (before[0] + 1, before[1])
            # The old one is there by its digest.
            assert get(server, f"app/manifests/{sha256(one)}").body == one
            # A tag that the upstream has no more is unknown. It is served again while the upstream is down.
            assert upstream.client().ask("DELETE", f"/v2/app/manifests/{sha256(two)}").status == 202
            assert until(lambda: get(server, "app/manifests/v1").status == 404, 30)
            proxy.status = 500
            assert get(server, "app/manifests/v1").body == two


def the_least_recently_used_makes_room():
    layers = [noise(300_000, number) for number in range(6)]
    with theirs() as (upstream, proxy), mirroring(proxy, "--sweep-ms", "50", tenants=("hub=1000000",)) as server:
        contents = [push_image(upstream, "app", f"v{number}", data) for number, data in enumerate(layers)]
        def pull(number):
            assert get(server, f"app/manifests/v{number}").body == contents[number]
            assert blob(server, layers[number]).body == layers[number]
            assert is_stored(server, sha256(contents[number])), server.logged()[-3000:]
        for number in (0, 1, 2):
            pull(number)
        pull(0)
        pull(3)
        page = json.loads(server.client().ask("GET", "/status?tenant=hub").body)
        assert [tag["name"] for tag in page["repositories"][0]["tags"]] == ["v0", "v2", "v3"], page
        assert metric(server, "evicted") == 2 and used(server) <= 1_000_000
        for number in (4, 5, 1):
            pull(number)
        # A blob that cannot fit is passed on, and nothing is deleted for it.
        evicted, long = metric(server, "evicted"), noise(1_500_000, 9)
        upstream.push("app", long)
        for _ in range(2):
            assert blob(server, long).body == long
        assert metric(server, "evicted") == evicted and proxy.count("GET", sha256(long)) == 2
        # An image that does not fit as a whole is passed on too.
        big = push_image(upstream, "app", "big", *(noise(400_000, 20 + number) for number in range(3)))
        assert get(server, "app/manifests/big").body == big
        for number in range(3):
            assert blob(server, noise(400_000, 20 + number)).status == 200
        assert used(server) <= 1_000_000


def what_was_pushed_stays():
    pushed, layers = noise(500_000, 9), [noise(300_000, number) for number in range(4)]
    own = manifest_of(b"{}", [pushed])
    with theirs() as (upstream, proxy), folder() as path:
        contents = [push_image(upstream, "app", f"v{number}", data) for number, data in enumerate(layers)]
        with serving("--data", path, tenants=("hub=1000000",)) as server:
            client = server.client()
            push(client, "hub/app", b"{}")
            push(client, "hub/app", pushed)
            push_manifest(client, "hub/app", "own", own)
            by_kill_of_both(server)
        for end in (by_signal, by_kill_of_both):
            with mirroring(proxy, "--data", path, tenants=("hub=1000000",)) as server:
                for content, data in zip(contents, layers):
                    tag = f"v{contents.index(content)}"
                    assert get(server, f"app/manifests/{tag}").body == content and blob(server, data).body == data
                    assert is_stored(server, sha256(content)), server.logged()[-3000:]
                    assert get(server, "app/manifests/own").body == own and blob(server, pushed).body == pushed
                assert metric(server, "evicted") > 0 and proxy.count("GET", sha256(pushed)) == 0
                assert "own" in json.loads(get(server, "app/tags/list").body)["tags"]
                end(server)
        # Without the option it is a tenant as any other, and what it copied can be pushed.
        with serving("--data", path, tenants=("hub=1000000",)) as server:
            client = server.client()
            assert get(server, "app/manifests/own").body == own and get(server, "app/manifests/v3").body == contents[3]
            push_manifest(client, "hub/app", "v3", contents[3])
            by_signal(server)
        with mirroring(proxy, "--data", path, tenants=("hub=1000000",)) as server:
            before = proxy.count("GET", sha256(layers[3]))
            for number in (0, 1):
                assert get(server, f"app/manifests/v{number}").body == contents[number] and blob(server, layers[number]).body == layers[number]
            assert get(server, "app/manifests/v3").body == contents[3] and blob(server, layers[3]).body == layers[3]
            assert get(server, "app/manifests/own").body == own and proxy.count("GET", sha256(layers[3])) == before


def what_a_pushed_index_lists_stays():
    layers = [noise(300_000, number) for number in range(5)]
    with theirs() as (upstream, proxy), folder() as path:
        contents = [push_image(upstream, "app", f"v{number}", data) for number, data in enumerate(layers)]
        with mirroring(proxy, "--data", path, tenants=("hub=1000000",)) as server:
            assert get(server, "app/manifests/v0").body == contents[0] and is_stored(server, sha256(contents[0]))
            by_signal(server)
        listing = '{"schemaVersion":2,"mediaType":"%s","manifests":[{"mediaType":"%s","digest":"%s","size":%d}]}' % (
            INDEX, MANIFEST, sha256(contents[0]), len(contents[0]))
        with serving("--data", path, tenants=("hub=1000000",)) as server:
            push_manifest(server.client(), "hub/app", "own", listing.encode(), INDEX)
            by_signal(server)
        with mirroring(proxy, "--data", path, tenants=("hub=1000000",)) as server:
            for number in (1, 2, 3, 4):
                assert get(server, f"app/manifests/v{number}").body == contents[number] and is_stored(server, sha256(contents[number]))
            assert metric(server, "evicted") > 0
            before = proxy.count("GET", sha256(layers[0]))
            assert get(server, f"app/manifests/{sha256(contents[0])}").body == contents[0] and blob(server, layers[0]).body == layers[0]
            assert proxy.count("GET", sha256(layers[0])) == before


def a_signal_ends_a_fetch():
    data = noise(4_000_000, 1)
    with theirs() as (upstream, proxy), folder() as path, mirroring(proxy, "--data", path) as server:
        upstream.push("app", data)
        proxy.stall = 3_000_000
        with concurrent.futures.ThreadPoolExecutor(1) as pool:
            pulled = pool.submit(is_cut, server, data)
            assert until(lambda: used(server) > 1_000_000, 30)
            by_signal(server)
            assert pulled.result()


def an_almost_full_disk_keeps_what_it_has():
    data, other = noise(1000, 1), noise(1000, 2)
    with theirs() as (upstream, proxy), folder() as path:
        content = push_image(upstream, "app", "v1", data)
        with mirroring(proxy, "--data", path) as server:
            assert get(server, "app/manifests/v1").body == content and is_stored(server, sha256(content))
            by_signal(server)
        second = push_image(upstream, "app", "v2", other)
        with mirroring(proxy, "--data", path, "--min-free", str(1 << 60)) as server:
            assert get(server, "app/manifests/v1").body == content and blob(server, data).body == data
            # A manifest is passed on, and a blob is not fetched.
            assert get(server, "app/manifests/v2").body == second
            answer = blob(server, other)
            assert answer.status == 503 and b"almost full" in answer.body, answer.body
            assert state(server)["copies"] == 3 and state(server)["failures"] == 0, state(server)
            by_signal(server)
        with mirroring(proxy, "--data", path) as server:
            assert get(server, "app/manifests/v2").body == second and blob(server, other).body == other


def a_kill_leaves_nothing_half():
    data = noise(8_000_000, 1)
    with theirs() as (upstream, proxy), folder() as path:
        content = push_image(upstream, "app", "v1", data)
        for _ in range(3):
            proxy.pause = 0.02
            with mirroring(proxy, "--data", path) as server:
                with concurrent.futures.ThreadPoolExecutor(1) as pool:
                    pulled = pool.submit(is_cut, server, data)
                    assert until(lambda: used(server) > 2_000_000, 30)
                    by_kill_of_both(server)
                    assert pulled.result()
        proxy.heal()
        with mirroring(proxy, "--data", path) as server:
            assert until(lambda: used(server) == 0 and server.metric("registryd_uploads") == 0, 30), used(server)
            assert not [name for name in os.listdir(path) if name.startswith("fetch-")]
            assert get(server, "app/manifests/v1").body == content and blob(server, data).body == data
            assert is_stored(server, sha256(content))
            by_kill_of_both(server)
        upstream.stop()
        with mirroring(proxy, "--data", path) as server:
            assert get(server, "app/manifests/v1").body == content and blob(server, data).body == data


def pulls_are_events_and_copies_are_not():
    """As in the pull-through cache of docker-registry: what the mirror stores and deletes by itself is not reported."""
    with theirs() as (upstream, proxy), Receiver().begin() as receiver, receivers_file(receiver.entry()) as file:
        with mirroring(proxy, "--events", file, "--sweep-ms", "50", tenants=("hub=3000000",)) as server:
            layers = [noise(2_000_000, number) for number in range(2)]
            images = [push_image(upstream, "app", f"v{number}", layer) for number, layer in enumerate(layers)]
            expected = []
            for number, (layer, content) in enumerate(zip(layers, images)):
                for _ in range(2):
                    assert get(server, f"app/manifests/v{number}").status == 200
                    assert blob(server, layer).status == blob(server, layer, method="HEAD").status == 200
                    assert is_stored(server, sha256(content))
                    expected += [("pull", "hub/app", what) for what in (f"v{number}", sha256(layer), sha256(layer))]
            found = receiver.has(len(expected))
            assert sorted(brief(event) for event in found) == sorted(expected), found
            sizes = {event["target"]["digest"]: event["target"]["size"] for event in found}
            assert sizes == {sha256(data): len(data) for data in layers + images}, sizes
            assert metric(server, "evicted") >= 2
            # The length of this one may be unknown when its response begins.
            proxy.chunked, long = True, noise(1_500_000, 9)
            upstream.push("app", long)
            assert blob(server, long).body == long
            last = receiver.has(len(expected) + 1)[-1]
            assert brief(last) == ("pull", "hub/app", sha256(long)) and last["target"].get("size") in (None, len(long)), last


def parts_of_what_comes():
    data, short = noise(4_000_000, 1), noise(1000, 2)
    with theirs() as (upstream, proxy), mirroring(proxy) as server:
        for one in (data, short):
            upstream.push("app", one)
        head = blob(server, data, method="HEAD")
        assert (head.status, head["Content-Length"], proxy.count("GET", "/blobs/")) == (200, str(len(data)), 0)
        def part(range, start, end, pause):
            with theirs() as (upstream, proxy), mirroring(proxy) as server:
                upstream.push("app", data)
                proxy.pause = pause
                answer = blob(server, data, headers={"Range": range})
                assert (answer.status, answer["Content-Range"]) == (206, f"bytes {start}-{end - 1}/{len(data)}"), answer.status
                assert answer.body == data[start:end]
        part("bytes=100-199", 100, 200, 0.001)
        part("bytes=-7", len(data) - 7, len(data), 0)
        proxy.pause = 0.005
        answer = blob(server, data, headers={"Range": f"bytes={len(data)}-"})
        assert answer.status == 416, answer.status
        answer = blob(server, data, headers={"If-None-Match": f'"{sha256(data)}"'})
        assert answer.status == 304
        assert blob(server, data, headers={"If-Match": '"other"'}).status == 412
        assert blob(server, data).body == data
        proxy.heal()
        assert blob(server, short, headers={"Range": "bytes=5-"}).body == short[5:]
        # A part of a blob with a wrong digest is no more complete than all of it.
        wrong = noise(2_000_000, 3)
        upstream.push("app", wrong)
        proxy.flip = True
        try:
            answer = server.client().ask_once("GET", f"/v2/hub/app/blobs/{sha256(wrong)}", headers={"Range": "bytes=0-9"})
            assert answer.status == 502, answer.status
        except (http.client.IncompleteRead, ConnectionResetError) as error:
            assert len(getattr(error, "partial", b"")) < 10


def everything_is_copied():
    with theirs() as (upstream, proxy), folder() as path:
        contents = {(repo, f"v{number}"): push_image(upstream, repo, f"v{number}", noise(50_000, f"{repo}{number}"))
                    for repo in ("app", "library/web") for number in range(3)}
        parts = ",".join('{"mediaType":"%s","digest":"%s","size":%d}' % (MANIFEST, sha256(one), len(one))
                         for (repo, _), one in contents.items() if repo == "app")
        contents["app", "all"] = ('{"schemaVersion":2,"mediaType":"%s","manifests":[%s]}' % (INDEX, parts)).encode()
        upstream.put("app", "all", contents["app", "all"], INDEX)
        with mirroring(proxy, "--mirror-s", "1", "--data", path, tag_s=LONG) as server:
            assert until(lambda: (state(server)["copied"]["tags"], state(server)["copied"]["failed"]) == (7, 0), 60), server.logged()[-3000:]
            # Tags come and move, although one is believed for an hour.
            contents["app", "v1"] = push_image(upstream, "app", "v1", noise(50_000, 77))
            contents["new", "v1"] = push_image(upstream, "new", "v1", noise(50_000, 78))
            assert until(lambda: state(server)["copied"]["tags"] == 8, 60)
            assert is_stored(server, sha256(contents["app", "v1"]))
            upstream.stop()
            for (repo, tag), content in contents.items():
                assert get(server, f"{repo}/manifests/{tag}").body == content, (repo, tag)
            by_signal(server)
        # The same folder serves it without the upstream, as a registry of its own.
        with serving("--data", path, tenants=TENANT) as server:
            for (repo, tag), content in contents.items():
                assert get(server, f"{repo}/manifests/{tag}").body == content, (repo, tag)
                for entry in json.loads(content).get("layers", []):
                    assert sha256(get(server, f"{repo}/blobs/{entry['digest']}").body) == entry["digest"]


def signed(top):
    """Makes an authority, and a certificate of localhost that it signs."""
    def openssl(*words):
        subprocess.run(["openssl", *words], check=True, cwd=top, stdout=subprocess.DEVNULL, stderr=subprocess.DEVNULL)
    key = ["-newkey", "ec", "-pkeyopt", "ec_paramgen_curve:P-256", "-nodes"]
    openssl("req", "-x509", *key, "-days", "2", "-subj", "/CN=authority", "-keyout", "ca.key", "-out", "ca.crt")
    openssl("req", *key, "-subj", "/CN=localhost", "-addext", "subjectAltName=DNS:localhost", "-keyout", "own.key", "-out", "own.csr")
    openssl("x509", "-req", "-in", "own.csr", "-CA", "ca.crt", "-CAkey", "ca.key", "-days", "2", "-copy_extensions", "copy", "-out", "own.crt")


def tls_is_checked():
    """The upstream is a registryd, and its tenant `acme` is what is copied."""
    data = noise(2_000_000, 1)
    content = manifest_of(b"{}", [data])
    with tempfile.TemporaryDirectory() as top:
        signed(top)
        with serving("--tls-cert", f"{top}/own.crt", "--tls-key", f"{top}/own.key", tenants=("acme=10000000",)) as upstream:
            client = Client(upstream.address)
            client.connection = http.client.HTTPSConnection(upstream.address, timeout=60, context=ssl._create_unverified_context())
            for one in (b"{}", data):
                push(client, "acme/app", one)
            push_manifest(client, "acme/app", "v1", content)
            of = ["--mirror-of", f"hub=https://localhost:{upstream.address.rsplit(':', 1)[1]}/acme"]
            with serving(*of, tenants=TENANT, env={**os.environ, "SSL_CERT_FILE": f"{top}/ca.crt"}) as server:
                assert get(server, "app/manifests/v1").body == content and blob(server, data).body == data
                assert json.loads(get(server, "app/tags/list").body)["tags"] == ["v1"]
            with serving(*of, tenants=TENANT) as server:
                assert get(server, "app/manifests/v1").status == 502
                assert "certificate" in state(server)["last_failure"]["why"], state(server)
        empty = f"{top}/empty"
        open(empty, "w").close()
        check(ended(*of, tenants=TENANT, env={**os.environ, "SSL_CERT_FILE": empty, "SSL_CERT_DIR": top}), 1, "certificates of the system's authorities")


def a_start_says_what_is_wrong():
    for words, tenants, text in (
            (["--mirror-of", "https://a"], ("a=1", "b=1"), "which tenant is a mirror of https://a?"),
            (["--mirror-of", "c=https://a"], ("a=1",), "no such tenant: c"),
            (["--mirror-of", "a=https://x", "--mirror-of", "a=https://y"], ("a=1",), "tenant a is a mirror of another registry"),
            (["--mirror-of", "a=ftp://a"], ("a=1",), "write http or https"),
            (["--mirror-of", "https://127.0.0.1:5000"], ("a=1",), "write the name of the host"),
            (["--mirror-of", "https://user:word@a"], ("a=1",), "--mirror-credentials")):
        check(ended(*words, tenants=tenants), 2, text)
    with users("hub user") as file:
        check(ended("--mirror-of", "https://a", "--mirror-credentials", file, tenants=("hub=1",)), 1, "line 1: not TENANT USER:PASSWORD")


TESTS = [an_image_comes_through, docker_pulls, pulls_are_events_and_copies_are_not, an_index_and_its_images_come, nothing_is_pushed_into_it, one_fetch_is_for_all_clients,
         a_wrong_digest_is_never_complete, a_cut_response_is_cut, content_without_a_length_is_checked,
         one_that_is_down_is_not_asked_at_once, clients_at_once_get_what_they_ask_for, fetches_at_once_are_bounded,
         an_immutable_tag_holds_its_copy, slow_bytes_end, a_rate_limit_is_kept, tokens_are_renewed, a_password_is_used,
         redirects_are_followed, a_tag_moves_after_its_time, the_least_recently_used_makes_room, what_was_pushed_stays,
         what_a_pushed_index_lists_stays, a_signal_ends_a_fetch, an_almost_full_disk_keeps_what_it_has, a_kill_leaves_nothing_half,
         parts_of_what_comes, everything_is_copied, tls_is_checked, a_start_says_what_is_wrong]


def main():
    names = sys.argv[1:]
    tests = [test for test in TESTS if not names or test.__name__ in names]
    wrong = sum(played(test) for test in tests)
    print(f"mirror: {len(tests) - wrong} passed, {wrong} failed")
    sys.exit(wrong > 0)


if __name__ == "__main__":
    main()
