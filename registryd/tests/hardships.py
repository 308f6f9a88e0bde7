#!/usr/bin/env python3
"""Tests clients that disconnect, are slow, send too much or nothing, or have no user, and programs that are killed."""
import base64, os, random, signal, subprocess, sys, tempfile, time, traceback

from playing import LASTING
from server import serving, sha256

PATCH = {"Content-Type": "application/octet-stream"}
MIB = 1 << 20


def head_of(method, path, **headers):
    lines = [f"{method} /v2/{path} HTTP/1.1", "Host: x", *(f"{key.replace('_', '-')}: {value}" for key, value in headers.items())]
    return ("\r\n".join(lines) + "\r\n\r\n").encode()


def a_broken_off_upload_is_resumed(server):
    client, data = server.client(), random.Random(1).randbytes(20 * MIB)
    at = client.ask("POST", "/v2/acme/one/blobs/uploads/")["Location"]
    line = server.socket()
    line.sendall(head_of("PATCH", at[len("/v2/"):], Content_Length=len(data)) + data[:5 * MIB + 777])
    line.close()
    for _ in range(100):
        received = int(client.ask("GET", at)["Range"].split("-")[1]) + 1
        if received == 5 * MIB + 777:
            break
        time.sleep(0.05)
    assert received == 5 * MIB + 777, received
    answer = client.ask("PATCH", at, data[received:], {**PATCH, "Content-Range": f"{received}-{len(data) - 1}"})
    assert answer.status == 202, answer.status
    assert client.ask("PUT", f"{at}?digest={sha256(data)}").status == 201
    assert client.ask("GET", f"/v2/acme/one/blobs/{sha256(data)}").body == data


def a_broken_off_post_leaves_nothing(server):
    used = lambda: server.metric('registryd_tenant_used_bytes{tenant="other"}')
    line = server.socket()
    line.sendall(head_of("POST", f"other/x/blobs/uploads/?digest={sha256(b'')}", Content_Length=9 * MIB) + b"x" * (5 * MIB))
    for _ in range(100):
        if used() > 0:
            break
        time.sleep(0.02)
    assert used() > 0
    line.close()
    for _ in range(100):
        if used() == 0:
            return
        time.sleep(0.02)
    raise AssertionError(f"{used()} bytes are still in use")


def slow_readers_delay_nobody(server):
    client, data = server.client(), random.Random(2).randbytes(30 * MIB)
    assert client.ask("POST", f"/v2/acme/two/blobs/uploads/?digest={sha256(data)}", data, PATCH).status == 201
    slow = [server.socket() for _ in range(20)]
    for line in slow:
        line.sendall(head_of("GET", f"acme/two/blobs/{sha256(data)}"))
        assert line.recv(100).startswith(b"HTTP/1.1 200")
    begun = time.time()
    for _ in range(20):
        assert client.ask("HEAD", f"/v2/acme/two/blobs/{sha256(data)}").status == 200
    assert time.time() - begun < 20, time.time() - begun
    # They have leases, so a delete frees nothing until they disconnect.
    held = lambda: server.metric("registryd_held_slots")
    assert client.ask("DELETE", f"/v2/acme/two/blobs/{sha256(data)}").status == 202
    free = server.metric("registryd_free_slots")
    time.sleep(0.3)
    assert server.metric("registryd_free_slots") == free and held() > 0
    for line in slow:
        line.close()
    for _ in range(200):
        if server.metric("registryd_free_slots") == free + 1 and held() == 0:
            return
        time.sleep(0.05)
    raise AssertionError("a reader that disconnected still has its lease")


def idle_connections_cost_little(server):
    before = server.memory()
    idle = [server.socket() for _ in range(100)]
    for line in idle[50:]:
        line.sendall(b"GET /v2/ HT")
    begun = time.time()
    assert server.client().ask("GET", "/v2/").status == 200
    assert time.time() - begun < 20
    assert server.memory() - before < 20 * MIB, server.memory() - before
    for line in idle:
        line.close()


def a_long_upload_takes_its_own_memory_alone(server):
    client, data = server.client(), random.Random(3).randbytes(100 * MIB)
    # The allocator of a build without proof copies a block that grows, and holds back what was freed.
    most = (300 if "NOT VERIFIED" in server.logged() else 130) * MIB
    before = server.memory()
    assert client.ask("POST", f"/v2/acme/long/blobs/uploads/?digest={sha256(data)}", data, PATCH).status == 201
    assert server.memory() - before < most, (server.memory() - before) / MIB
    assert client.ask("DELETE", f"/v2/acme/long/blobs/{sha256(data)}").status == 202


def a_client_that_expects_100_fails_before_it_sends(server):
    line = server.socket()
    unknown = "acme/one/blobs/uploads/5bd5e3a4-0c7b-4a79-b7a6-d5ae4cd1b3a5"
    line.sendall(head_of("PATCH", unknown, Expect="100-continue", Content_Length=1000))
    answer = line.recv(1000)
    assert answer.startswith(b"HTTP/1.1 404"), answer
    line.close()
    line = server.socket()
    line.sendall(head_of("POST", f"acme/one/blobs/uploads/?digest={sha256(b'abc')}", Expect="100-continue", Content_Length=3))
    assert line.recv(1000).startswith(b"HTTP/1.1 100")
    line.sendall(b"abc")
    assert line.recv(1000).startswith(b"HTTP/1.1 201")
    line.close()


def slow_senders_delay_nobody(server):
    client, data = server.client(), random.Random(5).randbytes(2000)
    at = [client.ask("POST", "/v2/acme/slow/blobs/uploads/")["Location"] for _ in range(20)]
    slow = [server.socket() for _ in at]
    for line, place in zip(slow, at):
        line.sendall(head_of("PATCH", place[len("/v2/"):], Content_Length=len(data)) + data[:1])
    begun = time.time()
    for _ in range(20):
        assert client.ask("GET", at[0]).status == 204
    assert time.time() - begun < 20, time.time() - begun
    for byte in range(1, 1000, 111):
        for line in slow:
            line.sendall(data[byte:byte + 111])
    for line in slow:
        line.sendall(data[1000:])
        assert line.recv(1000).startswith(b"HTTP/1.1 202")
        line.close()
    for place in at:
        assert client.ask("PUT", f"{place}?digest={sha256(data)}").status == 201


def malformed_requests_end_their_connection(server):
    for text in (b"\0\1\2\3\r\n\r\n", b"GET\r\n\r\n", b"GET / HTTP/9\r\n\r\n", b"POST /v2/ HTTP/1.1\r\nContent-Length: -1\r\n\r\n",
                 b"POST /v2/ HTTP/1.1\r\nContent-Length: 1\r\nContent-Length: 2\r\n\r\n"):
        line = server.socket()
        line.sendall(text)
        answer = line.recv(1000)
        assert answer == b"" or answer.startswith(b"HTTP/1.1 400"), (text, answer)
        line.close()
    assert server.client().ask("GET", "/v2/").status == 200


def two_chunks_at_once_do_not_mix(server):
    client, data = server.client(), random.Random(4).randbytes(3 * MIB)
    at = client.ask("POST", "/v2/acme/one/blobs/uploads/")["Location"]
    lines = [server.socket() for _ in range(2)]
    for line in lines:
        line.sendall(head_of("PATCH", at[len("/v2/"):], Content_Length=len(data), Content_Range=f"0-{len(data) - 1}"))
    for line in lines:
        line.sendall(data)
    status = sorted(line.recv(1000).split()[1].decode() for line in lines)
    assert status[0] == "202" and status[1] in ("416", "429"), status
    assert client.ask("PUT", f"{at}?digest={sha256(data)}").status == 201


def users_have_their_own_tenant():
    hashes = {"acme": "$2y$05$WPSbK2DIsoFcNmh8.ZRjyenCTz99CZnzjMErrXyIjCuKJLFJA1d1S", "other": "!"}
    with tempfile.NamedTemporaryFile("w") as file:
        file.write("".join(f"{user}:{hashed}\n" for user, hashed in hashes.items()))
        file.flush()
        with serving("--htpasswd", file.name) as server:
            def status(words, path="/v2/acme/one/tags/list"):
                basic = base64.b64encode(words.encode()).decode()
                return server.client({"Authorization": f"Basic {basic}"} if words else {}).ask("GET", path)
            refused = status("")
            assert refused.status == 401 and refused["WWW-Authenticate"].startswith("Basic "), refused.status
            assert refused.code() == "UNAUTHORIZED"
            asked = {words: status(words).status for words in ("acme:secret", "acme:other", "other:secret", "other:!", "nobody:secret")}
            assert asked == {"acme:secret": 404, "acme:other": 401, "other:secret": 401, "other:!": 401, "nobody:secret": 401}, asked
            assert status("acme:secret", "/v2/other/one/tags/list").status == 403
            assert status("acme:secret", "/v2/").status == 200 and status("", "/v2/").status == 401
            assert status("", "/metrics").status == 401 and status("", "/healthz").status == 200


def unused_uploads_are_abandoned():
    with serving("--session-s", "1") as server:
        client = server.client()
        at = client.ask("POST", "/v2/acme/one/blobs/uploads/")["Location"]
        client.ask("PATCH", at, b"x" * 1000, PATCH)
        assert server.metric("registryd_uploads") == 1
        for _ in range(100):
            if server.metric("registryd_uploads") == 0:
                break
            time.sleep(0.05)
        assert client.ask("GET", at).status == 404
        assert server.metric('registryd_tenant_used_bytes{tenant="acme"}') == 0


def a_signal_ends_it_once_open_requests_have():
    with serving() as server:
        line, data = server.socket(), b"x" * 100_000
        line.sendall(head_of("POST", f"acme/one/blobs/uploads/?digest={sha256(data)}", Content_Length=len(data)) + data[:1000])
        time.sleep(0.3)
        server.process.send_signal(signal.SIGTERM)
        server.wait_for("stopping")
        line.sendall(data[1000:])
        assert line.recv(1000).startswith(b"HTTP/1.1 201")
        assert server.end() == 0
        assert " bytes received, " in server.logged()
    with serving() as server:
        assert server.end(signal.SIGINT) == 0


def limits_are_reported():
    with serving("--slots", "2", "--max-blob", "1000", "--sweep-ms", "1000000") as server:
        client = server.client()
        push = lambda data: client.ask("POST", f"/v2/acme/one/blobs/uploads/?digest={sha256(data)}", data, PATCH)
        longer = push(b"x" * 1001)
        assert (longer.status, longer.code()) == (413, "SIZE_INVALID"), longer.body
        status = [push(data).status for data in (b"a" * 1000, b"b", b"c")]
        assert status == [201, 201, 507], status
        *opened, refused = [client.ask("POST", "/v2/other/one/blobs/uploads/") for _ in range(LASTING + 1)]
        assert {answer.status for answer in opened} == {202} and refused.status == 429, refused.status
        assert refused.code() == "TOOMANYREQUESTS"


def a_piece_is_refused_while_the_next_is_on_its_way():
    with serving("--lines", "1", tenants=["acme=3000000"]) as server:
        client, data = server.client(), random.Random(5).randbytes(12 * MIB)
        at = client.ask("POST", "/v2/acme/one/blobs/uploads/")["Location"]
        # The length is not sent, so its first pieces are accepted.
        answer = client.ask("PATCH", at, iter([data]), {**PATCH, "Transfer-Encoding": "chunked"})
        assert (answer.status, answer.code()) == (403, "DENIED"), answer.body
        # The bytes within the quota were appended, and the upload can be resumed there on the same connection.
        received = int(client.ask("GET", at)["Range"].split("-")[1]) + 1
        assert MIB < received < 3_000_000, received
        answer = client.ask("PATCH", at, data[received:2_999_000], PATCH)
        assert answer.status == 202 and answer["Range"] == "0-2998999", answer.status
        assert client.ask("PUT", f"{at}?digest={sha256(data[:2_999_000])}").status == 201


def metrics_count_what_was_done():
    with serving("--slots", "8", "--sweep-ms", "20", tenants=("acme=1000000000,5", "other=1000")) as server:
        client, blob = server.client(), f"/v2/acme/one/blobs/{sha256(b'abc')}"
        assert client.ask("POST", f"/v2/acme/one/blobs/uploads/?digest={sha256(b'abc')}", b"abc", PATCH).status == 201
        assert client.ask("GET", blob).body == b"abc"
        used, quota, blobs, share = (f'registryd_tenant_{name}{{tenant="acme"}}' for name in ("used_bytes", "quota_bytes", "blobs", "share"))
        wanted = {'registryd_requests_total{method="POST",status="201"}': 1, 'registryd_request_seconds_count{method="POST"}': 1,
                  "registryd_received_bytes_total": 3, "registryd_sent_bytes_total": 3, "registryd_uploads": 0,
                  "registryd_slots": 8, "registryd_free_slots": 7, "registryd_held_slots": 0, used: 3, quota: 1_000_000_000, blobs: 1, share: 5}
        reported = {name: server.metric(name) for name in wanted}
        assert reported == wanted, reported
        assert server.metric('registryd_tenant_share{tenant="other"}') == 4
        assert client.ask("DELETE", blob).status == 202
        assert not server.left(), server.left()
        assert server.metric("registryd_freed_slots_total") == 1 and server.metric("registryd_sweeps_total") > 1


def each_program_ends_after_the_other_is_killed():
    with serving() as server:
        child = server.child()
        os.kill(child, signal.SIGKILL)
        assert server.process.wait(timeout=20) == 1
        assert "the store is gone" in server.logged()
    with serving() as server:
        child = server.child()
        server.process.kill()
        server.process.wait()
        for _ in range(200):
            try:
                with open(f"/proc/{child}/stat") as file:
                    gone = file.read().split()[2] == "Z"
            except FileNotFoundError:
                gone = True
            if gone:
                return
            time.sleep(0.05)
        raise AssertionError("blobd is still running")


def a_failed_start_has_a_message():
    from server import BLOBD, REGISTRYD
    cases = [(["--blobd", "/no/such/program", "a=1"], 1, "/no/such/program"),
             (["--blobd", "/bin/false", "a=1"], 1, "blobd ended"),
             (["--blobd", BLOBD, "A=1"], 2, "`A=1`"),
             (["--blobd", BLOBD, "--listen", "0.0.0.0:0", "a=1"], 2, "--htpasswd"),
             (["--blobd", BLOBD, "--htpasswd", "/no/such/file", "a=1"], 1, "/no/such/file"),
             (["--blobd", BLOBD], 2, "TENANT=QUOTA")]
    for words, status, text in cases:
        words = words if "--listen" in words else ["--listen", "127.0.0.1:0", *words]
        ended = subprocess.run([REGISTRYD, *words], stderr=subprocess.PIPE, text=True, timeout=20)
        assert ended.returncode == status and text in ended.stderr, (words, ended)


WITH_ONE = [a_broken_off_upload_is_resumed, a_broken_off_post_leaves_nothing, slow_readers_delay_nobody,
            idle_connections_cost_little, a_long_upload_takes_its_own_memory_alone, a_client_that_expects_100_fails_before_it_sends,
            slow_senders_delay_nobody, malformed_requests_end_their_connection, two_chunks_at_once_do_not_mix]
ALONE = [users_have_their_own_tenant, unused_uploads_are_abandoned, a_signal_ends_it_once_open_requests_have,
         limits_are_reported, a_piece_is_refused_while_the_next_is_on_its_way, metrics_count_what_was_done, each_program_ends_after_the_other_is_killed, a_failed_start_has_a_message]


def played(test, *words):
    """Runs a test. Returns 1 and prints the failing step if it fails, and 0 otherwise."""
    try:
        test(*words)
        return 0
    except Exception as error:
        steps = [step for step in traceback.extract_tb(error.__traceback__) if step.filename == sys.modules[test.__module__].__file__]
        step = steps[-1]
        print(f"WRONG {test.__name__}: line {step.lineno}: {step.line}: {type(error).__name__}: {error}")
        return 1


def main():
    wrong = 0
    with serving("--slots", "64", "--sweep-ms", "50", "--lines", "4") as server:
        wrong += sum(played(test, server) for test in WITH_ONE)
    wrong += sum(played(test) for test in ALONE)
    print(f"hardships: {len(WITH_ONE) + len(ALONE) - wrong} passed, {wrong} failed")
    sys.exit(wrong > 0)


if __name__ == "__main__":
    main()
