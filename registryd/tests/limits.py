#!/usr/bin/env python3
"""Tests the resources that one client can take from the others, and the end after a signal or with a hanging store:
connections, memory, connections to the store, passwords, metrics."""
import base64, contextlib, json, os, random, resource, select, shutil, signal, subprocess, sys, tempfile, threading, time

import server as servers
from hardships import MIB, PATCH, head_of, played
from playing import STUB, every_upload, serving_stub
from server import REGISTRYD, serving, sha256

STAT = "17"
# By `htpasswd -nbB -C 12`, of the password `secret`: about 0.2 s of work.
COSTLY = "$2b$12$kIV1QY2QhHXZLy/oKAmtZerVboJWvuY2fpXYnW4Edy.gcb87au26i"
# By `htpasswd -nbB`, of the same password.
CHEAP = "$2y$05$WPSbK2DIsoFcNmh8.ZRjyenCTz99CZnzjMErrXyIjCuKJLFJA1d1S"
SMALL_FILES = 256


@contextlib.contextmanager
def file_limit(soft):
    """Sets the limit on open files of programs that are started here."""
    old, hard = resource.getrlimit(resource.RLIMIT_NOFILE)
    resource.setrlimit(resource.RLIMIT_NOFILE, (soft, hard))
    try:
        yield
    finally:
        resource.setrlimit(resource.RLIMIT_NOFILE, (max(old, min(hard, 4096)), hard))


@contextlib.contextmanager
def stopped(pid):
    """Stops a process while the block runs, so that it hangs."""
    os.kill(pid, signal.SIGSTOP)
    try:
        yield
    finally:
        os.kill(pid, signal.SIGCONT)


@contextlib.contextmanager
def users(*lines):
    with tempfile.NamedTemporaryFile("w") as file:
        file.write("".join(line + "\n" for line in lines))
        file.flush()
        yield file.name


def basic(words):
    return {"Authorization": "Basic " + base64.b64encode(words.encode()).decode()}


def is_closed(line, seconds):
    """Returns whether the server closes a connection within `seconds`."""
    line.settimeout(seconds)
    try:
        return line.recv(1000) == b""
    except ConnectionResetError:
        return True
    except TimeoutError:
        return False


def end_of(line):
    """Returns the status of a response, or nothing."""
    try:
        return line.recv(1000)[9:12]
    except ConnectionResetError:
        return b""


def took(call):
    begun = time.time()
    result = call()
    return time.time() - begun, result


def until(condition, what, seconds=10):
    end = time.time() + seconds
    while not condition():
        assert time.time() < end, what
        time.sleep(0.05)


def idle_connections_lock_nobody_out():
    with file_limit(SMALL_FILES):
        server = servers.Server()
    try:
        idle = [server.socket() for _ in range(3 * SMALL_FILES // 2)]
        for line in idle[::2]:
            line.sendall(b"GET /v2/ HT")
        line = server.socket()
        line.sendall(head_of("GET", ""))
        line.settimeout(5)
        assert line.recv(1000).startswith(b"HTTP/1.1 200")
    finally:
        server.process.kill()
        server.process.wait()


def the_oldest_idle_connection_makes_room():
    with serving("--connections", "20") as server:
        busy, data = server.socket(), b"x" * 1000
        busy.sendall(head_of("POST", f"acme/one/blobs/uploads/?digest={sha256(data)}", Content_Length=len(data)) + data[:1])
        time.sleep(0.2)
        idle = [server.socket() for _ in range(19)]
        time.sleep(0.2)
        took_, answer = took(lambda: server.client().ask("GET", "/v2/"))
        assert answer.status == 200 and took_ < 2, took_
        assert is_closed(idle[0], 2), "the oldest is open"
        assert not is_closed(idle[-1], 0.2), "the newest is closed"
        busy.sendall(data[1:])
        assert busy.recv(1000).startswith(b"HTTP/1.1 201"), "a request in progress was interrupted"


def stalled_clients_are_disconnected():
    with serving("--head-s", "1", "--idle-s", "2") as server:
        client, data = server.client(), random.Random(1).randbytes(12 * MIB)
        assert client.ask("POST", f"/v2/acme/one/blobs/uploads/?digest={sha256(data)}", data, PATCH).status == 201
        at = client.ask("POST", "/v2/acme/one/blobs/uploads/")["Location"]
        half, slow, idle, body, reader = (server.socket() for _ in range(5))
        half.sendall(b"GET /v2/ HT")
        reader.sendall(head_of("GET", f"acme/one/blobs/{sha256(data)}"))
        body.sendall(head_of("PATCH", at[len("/v2/"):], Content_Length=1000) + b"x" * 10)
        idle.sendall(head_of("GET", ""))
        assert idle.recv(1000).startswith(b"HTTP/1.1 200")
        assert is_closed(half, 1.9), "half a head"
        begun = time.time()
        with contextlib.suppress(BrokenPipeError, ConnectionResetError):
            for byte in head_of("GET", "", X_Long="x" * 100):
                slow.sendall(bytes([byte]))
                time.sleep(0.1)
        assert time.time() - begun < 2.5, "a head that never ends"
        assert is_closed(idle, 3), "a connection without a request"
        body.settimeout(3)
        assert body.recv(1000).startswith(b"HTTP/1.1 408"), "a body that stalls"
        client = server.client()
        assert client.ask("GET", at)["Range"] == "0-9"
        assert client.ask("DELETE", f"/v2/acme/one/blobs/{sha256(data)}").status == 202
        until(lambda: server.metric("registryd_held_slots") == 0, "a reader that takes no bytes keeps its lease")


def no_files_left_is_no_end():
    with serving() as server:
        pid = server.process.pid
        client = server.client()
        assert client.ask("GET", "/v2/").status == 200
        limits = resource.prlimit(pid, resource.RLIMIT_NOFILE)
        files = {int(name) for name in os.listdir(f"/proc/{pid}/fd")}
        lowest = min(set(range(len(files) + 1)) - files)
        resource.prlimit(pid, resource.RLIMIT_NOFILE, (lowest, limits[1]))
        waiting = server.socket()
        waiting.sendall(head_of("GET", ""))
        server.wait_for("cannot accept a connection", 5)
        assert client.ask("GET", "/v2/").status == 200
        resource.prlimit(pid, resource.RLIMIT_NOFILE, limits)
        waiting.settimeout(3)
        assert waiting.recv(1000).startswith(b"HTTP/1.1 200")


def signals_to_all_processes_end_the_requests_first():
    for number in (signal.SIGINT, signal.SIGTERM):
        with serving() as server:
            line, data, child = server.socket(), b"x" * 100_000, server.child()
            assert os.getpgid(child) != os.getpgid(server.process.pid)
            line.sendall(head_of("POST", f"acme/one/blobs/uploads/?digest={sha256(data)}", Content_Length=len(data)) + data[:1000])
            time.sleep(0.2)
            idle = server.socket()
            idle.sendall(b"GET /v2/ HT")
            for pid in (child, server.process.pid):
                os.kill(pid, number)
            server.wait_for(" stopping")
            line.sendall(data[1000:])
            answer = line.recv(1000)
            assert answer.startswith(b"HTTP/1.1 201"), answer
            assert server.process.wait(timeout=10) == 0
            assert " bytes received, " in server.logged()


def a_signal_ends_it_while_the_store_hangs():
    with serving("--call-s", "1") as server:
        child = server.child()
        os.kill(child, signal.SIGSTOP)
        line = server.socket()
        line.sendall(head_of("HEAD", f"acme/one/blobs/{sha256(b'')}"))
        time.sleep(0.2)
        server.process.send_signal(signal.SIGTERM)
        line.settimeout(5)
        assert line.recv(1000).startswith(b"HTTP/1.1 503")
        assert server.process.wait(timeout=25) == 1
        assert not os.path.exists(f"/proc/{child}"), "blobd is still running"
        assert "was killed" in server.logged()


def a_signal_ends_it_before_the_store_is_there():
    words = [REGISTRYD, "--listen", "127.0.0.1:0", "--blobd", STUB, "acme=1"]
    rules = json.dumps({"greeting": {"slow": 60}})
    process = subprocess.Popen(words, stderr=subprocess.DEVNULL, env={**os.environ, "STUB_RULES": rules})
    time.sleep(0.5)
    process.send_signal(signal.SIGTERM)
    try:
        assert process.wait(timeout=5) == 0
    finally:
        process.kill()
        process.wait()


def a_tenants_slow_calls_hold_no_other_up():
    with serving_stub({f"{STAT} acme/one": {"slow": 1}}, "--lines", "4") as server:
        blob = f"blobs/{sha256(b'')}"
        slow = [server.socket() for _ in range(20)]
        for line in slow:
            line.sendall(head_of("HEAD", f"acme/one/{blob}"))
        time.sleep(0.3)
        other = server.client()
        for _ in range(5):
            seconds, answer = took(lambda: other.ask("HEAD", f"/v2/other/one/{blob}"))
            assert answer.status == 404 and seconds < 0.5, seconds
        assert slow[0].recv(1000).startswith(b"HTTP/1.1 404")
        for line in slow:
            line.close()


def a_hanging_store_is_reported():
    with serving("--call-s", "1", "--lines", "4") as server:
        blob = f"/v2/acme/one/blobs/{sha256(b'abc')}"
        assert server.client().ask("POST", f"/v2/acme/one/blobs/uploads/?digest={sha256(b'abc')}", b"abc", PATCH).status == 201
        asked = [("GET", "/healthz"), ("GET", "/v2/"), ("HEAD", blob), ("GET", blob)] + [("POST", "/v2/acme/one/blobs/uploads/")] * 12
        answers = [None] * len(asked)
        def ask(at):
            answers[at] = took(lambda: server.client().ask(*asked[at]))
        with stopped(server.child()):
            threads = [threading.Thread(target=ask, args=[at]) for at in range(len(asked))]
            for thread in threads:
                thread.start()
            for thread in threads:
                thread.join()
        for words, (seconds, answer) in zip(asked, answers):
            assert answer.status == 503 and answer["Retry-After"] and seconds < 3, (words, seconds, answer.status)
        client = server.client()
        until(lambda: client.ask("GET", "/healthz").status == 200, "the store does not continue")
        # No connection is lost, and no session and no lease remains.
        assert [client.ask("GET", blob).body for _ in range(10)] == [b"abc"] * 10
        with every_upload(server, "acme/one"):
            pass
        assert client.ask("DELETE", blob).status == 202
        until(lambda: server.metric("registryd_free_slots") == server.metric("registryd_slots"), "a lease remains")


def content_is_read_once_it_may_come():
    with serving() as server:
        cases = [("POST", f"nobody/x/blobs/uploads/?digest={sha256(b'')}", b"404"), ("PUT", "nobody/x/manifests/v1", b"404"),
                 ("POST", f"poor/x/blobs/uploads/?digest={sha256(b'')}", b"403")]
        for method, path, status in cases:
            line = server.socket()
            line.sendall(head_of(method, path, Content_Length=2 * MIB))
            line.settimeout(5)
            answer = line.recv(1000)
            assert answer.split()[1] == status, (path, answer)
            line.close()


def bytes_in_flight_are_bounded():
    with serving("--memory-in-flight", str(8 * MIB)) as server:
        def begin(tenant):
            line, data = server.socket(), b"x" * (6 * MIB)
            at = f"{tenant}/one/blobs/uploads/?digest={sha256(data)}"
            line.sendall(head_of("POST", at, Content_Length=len(data)) + data[:100])
            return line, data[100:]
        first, rest = begin("acme")
        time.sleep(0.3)
        begun = time.time()
        second, _ = begin("acme")
        # A client that sends nothing would be disconnected for the one that waits.
        while not select.select([second], [], [], 0.5)[0]:
            first.sendall(rest[:64 << 10])
            rest = rest[64 << 10:]
        answer = second.recv(1000)
        assert answer.startswith(b"HTTP/1.1 503") and b"retry-after: 1" in answer.lower(), answer
        assert 9 < time.time() - begun < 20, "it does not wait for some seconds"
        other, others_rest = begin("other")
        for line, data in ((first, rest), (other, others_rest)):
            line.sendall(data)
            assert line.recv(1000).startswith(b"HTTP/1.1 201")
        again, rest = begin("acme")
        again.sendall(rest)
        assert again.recv(1000).startswith(b"HTTP/1.1 201"), "reserved memory is not returned"


def a_failed_allocation_ends_requests_alone():
    with serving("--memory-in-flight", str(1 << 30)) as server:
        client, data = server.client(), random.Random(3).randbytes(4 * MIB)
        assert client.ask("GET", "/v2/").status == 200
        with open(f"/proc/{server.process.pid}/status") as file:
            size = [int(line.split()[1]) * 1024 for line in file if line.startswith("VmData")][0]
        lines = [server.socket() for _ in range(60)]
        head = head_of("POST", f"acme/one/blobs/uploads/?digest={sha256(data)}", Content_Length=len(data))
        for line in lines:
            line.sendall(head + data[:1000])
        until(lambda: server.metric("registryd_received_bytes_total") == 1000 * len(lines), "an upload did not begin", 20)
        old = resource.prlimit(server.process.pid, resource.RLIMIT_DATA, (size + 16 * MIB, resource.RLIM_INFINITY))
        def send(line):
            with contextlib.suppress(OSError):
                line.sendall(data[1000:])
        with stopped(server.child()):
            threads = [threading.Thread(target=send, args=[line], daemon=True) for line in lines]
            for thread in threads:
                thread.start()
            server.wait_for("out of memory: requests", 10)
        # The rest of the request is not read, so its connection may end before its response.
        ends = {end_of(line) for line in lines}
        assert ends <= {b"503", b"201", b""}, ends
        server.wait_for("status=503", 5)
        assert server.process.poll() is None, server.logged()[-500:]
        for line in lines:
            line.close()
        resource.prlimit(server.process.pid, resource.RLIMIT_DATA, old)
        def is_pushed():
            with contextlib.suppress(OSError):
                return server.client().ask("POST", f"/v2/acme/one/blobs/uploads/?digest={sha256(data)}", data, PATCH).status == 201
        until(is_pushed, "no upload succeeds", 20)
        assert server.process.poll() is None, server.logged()[-500:]


def a_media_type_has_a_limit():
    with serving() as server:
        client, config = server.client(), b"{}"
        assert client.ask("POST", f"/v2/acme/one/blobs/uploads/?digest={sha256(config)}", config, PATCH).status == 201
        for length, status in ((255, 201), (256, 400)):
            kind = "application/" + "x" * (length - len("application/"))
            text = '{"schemaVersion":2,"config":{"mediaType":"a/b","digest":"%s","size":2},"layers":[]}' % sha256(config)
            answer = client.ask("PUT", "/v2/acme/one/manifests/v1", text.encode(), {"Content-Type": kind})
            assert answer.status == status, (length, answer.status, answer.body)


def an_unknown_user_takes_as_long_as_a_known_one():
    with users(f"acme:{COSTLY}", "locked:!") as file, serving("--htpasswd", file) as server:
        def least(name):
            asked = [took(lambda: server.client(basic(f"{name}:wrong")).ask("GET", "/v2/")) for _ in range(2)]
            assert {answer.status for _, answer in asked} == {401}
            return min(seconds for seconds, _ in asked)
        known, unknown, locked = least("acme"), least("nobody"), least("locked")
        assert min(unknown, locked) > known / 3, f"{known:.3f} s, unknown: {unknown:.3f} s, locked: {locked:.3f} s"


def known_passwords_wait_for_no_unknown_ones():
    with users(f"acme:{COSTLY}") as file, serving("--htpasswd", file) as server:
        known = server.client(basic("acme:secret"))
        assert known.ask("GET", "/v2/").status == 200
        lines = [server.socket() for _ in range(600)]
        for number, line in enumerate(lines):
            words = basic(f"acme:{number}")["Authorization"]
            line.sendall(head_of("GET", "", Authorization=words))
        time.sleep(0.5)
        seconds, answer = took(lambda: known.ask("GET", "/v2/"))
        assert answer.status == 200 and seconds < 1, f"a known password waits for {seconds:.2f} s"
        server.wait_for("status=503", 10)
        answers = [line.recv(1000).lower() for line in select.select(lines, [], [], 1)[0]]
        refused = [answer for answer in answers if answer.startswith(b"http/1.1 503")]
        assert refused and all(b"retry-after" in answer for answer in refused), answers[:3]
        for line in lines:
            line.close()


def unsupported_hashes_are_rejected():
    for line in ("other:$apr1$Zk7Yq2xT$DZ7UqqZQZkSc1.xlOGv7u.", "other:{SHA}qUqP5cyxm6YcTAhz05Hph5gvu9M=", "other:secret"):
        with users("# users", f"acme:{CHEAP}", line) as file:
            words = [REGISTRYD, "--listen", "127.0.0.1:0", "--blobd", servers.BLOBD, "--htpasswd", file, "acme=1"]
            process = subprocess.Popen(words, stderr=subprocess.PIPE, text=True)
            try:
                text = process.communicate(timeout=5)[1]
            except subprocess.TimeoutExpired:
                raise AssertionError(f"it starts with the line {line}")
            finally:
                process.kill()
                process.wait()
            assert process.returncode == 1 and file in text and "line 3" in text, text


def metrics_are_for_one_user():
    with users(f"acme:{CHEAP}", f"prometheus:{CHEAP}") as file:
        def status(server, name):
            return server.client(basic(f"{name}:secret")).ask("GET", "/metrics").status
        with serving("--htpasswd", file) as server:
            assert status(server, "acme") == 403
        with serving("--htpasswd", file, "--metrics-user", "prometheus") as server:
            assert (status(server, "acme"), status(server, "prometheus")) == (403, 200)
            assert server.client().ask("GET", "/metrics").status == 401
        with serving("--htpasswd", file, "--metrics-listen", "127.0.0.1:0") as server:
            assert status(server, "acme") == 404
            watcher = servers.Client(server.wait_for(r"serving metrics address=(\S+)"))
            assert "registryd_tenant_quota_bytes" in watcher.ask("GET", "/metrics").body.decode()
            assert watcher.ask("GET", "/healthz").status == 200 and watcher.ask("GET", "/v2/").status == 404


def a_request_names_one_host():
    with serving() as server:
        cases = [("HTTP/1.1", [], b"400"), ("HTTP/1.1", ["a", "b"], b"400"), ("HTTP/1.1", ["a b"], b"400"),
                 ("HTTP/1.1", ["a:5000"], b"200"), ("HTTP/1.0", [], b"200"), ("HTTP/1.0", ["a", "a"], b"400")]
        for version, hosts, status in cases:
            line = server.socket()
            lines = [f"GET /v2/ {version}", *(f"Host: {host}" for host in hosts), "Connection: close"]
            line.sendall(("\r\n".join(lines) + "\r\n\r\n").encode())
            answer = line.recv(1000)
            assert answer.split()[1] == status, (version, hosts, answer)
            line.close()


def short_pipes_are_logged():
    with open("/proc/sys/fs/pipe-user-pages-soft") as file:
        pages = int(file.read())
    # Two pipes a connection, of 256 pages each. Together they exceed the pages that the user may have.
    lines = pages // 512 + 8
    if not 8 < lines <= 1024:
        print(f"limits: skipped: short pipes (a user may have {pages} pages)")
        return
    with tempfile.TemporaryDirectory() as folder:
        os.chmod(folder, 0o755)
        copies = [shutil.copy(path, folder) for path in (REGISTRYD, servers.BLOBD)]
        words = [copies[0], "--listen", "127.0.0.1:0", "--lines", str(lines), "--blobd", copies[1], "acme=1"]
        # The limit does not apply to root.
        user = {"user": 65534} if os.geteuid() == 0 else {}
        with open(f"{folder}/log", "w+") as log:
            process = subprocess.Popen(words, stderr=log, **user)
            try:
                with open(f"{folder}/log") as text:
                    reported = lambda: (text.seek(0), text.read())[1]
                    until(lambda: "listening" in reported() or process.poll() is not None, "it does not listen")
                    assert "pipes to the store are short" in reported(), reported()
                process.send_signal(signal.SIGTERM)
                assert process.wait(timeout=10) == 0
            finally:
                process.kill()
                process.wait()


def the_log_has_users_and_byte_counts():
    with users(f"acme:{CHEAP}") as file, serving("--htpasswd", file) as server:
        client = server.client(basic("acme:secret"))
        assert client.ask("POST", f"/v2/acme/one/blobs/uploads/?digest={sha256(b'abc')}", b"abc", PATCH).status == 201
        assert client.ask("GET", f"/v2/acme/one/blobs/{sha256(b'abc')}").body == b"abc"
        pushed = server.wait_for("method=POST .*")
        pulled = server.wait_for("method=GET .*")
        for line, words in ((pushed, ("status=201", "received=3")), (pulled, ("status=200", "sent=3"))):
            for word in (*words, "client=127.0.0.1:", 'user="acme"', f'digest="{sha256(b"abc")}"'):
                assert word in line, (word, line)


TESTS = [idle_connections_lock_nobody_out, the_oldest_idle_connection_makes_room, stalled_clients_are_disconnected,
         no_files_left_is_no_end, signals_to_all_processes_end_the_requests_first, a_signal_ends_it_while_the_store_hangs,
         a_signal_ends_it_before_the_store_is_there, a_tenants_slow_calls_hold_no_other_up, a_hanging_store_is_reported,
         content_is_read_once_it_may_come, bytes_in_flight_are_bounded, a_failed_allocation_ends_requests_alone,
         a_media_type_has_a_limit, an_unknown_user_takes_as_long_as_a_known_one, known_passwords_wait_for_no_unknown_ones, unsupported_hashes_are_rejected,
         metrics_are_for_one_user, a_request_names_one_host, short_pipes_are_logged, the_log_has_users_and_byte_counts]


def main():
    names = sys.argv[1:]
    tests = [test for test in TESTS if not names or test.__name__ in names]
    wrong = sum(played(test) for test in tests)
    print(f"limits: {len(tests) - wrong} passed, {wrong} failed")
    sys.exit(wrong > 0)


if __name__ == "__main__":
    main()
