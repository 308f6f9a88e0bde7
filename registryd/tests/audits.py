#!/usr/bin/env python3
"""Tests the audit log: what its lines have, what they never have, its rotation during requests, and a full disk; traces in the lines of the
log; and details of some repositories."""
import concurrent.futures, contextlib, json, os, re, signal, sys, tempfile, threading, time

from hardships import played
from immutable import delete
from limits import CHEAP, basic, users
from playing import until
from receivers import Receiver, receivers_file
from restarts import by_signal, folder, push, pushed
from retention import KEEP
from robots import add, robot, serving_robots
from server import Server, manifest_of, serving, sha256
from statuses import check, ended

AGAIN = "opened the audit log again"
TRACE = "0af7651916cd43dd8448eb211c80319c"
PARENT = {"traceparent": f"00-{TRACE}-b7ad6b7169203331-01"}


class JsonServer(Server):
    """A registry whose log is JSON."""

    def listens(self, seconds=60):
        self.address = self.wait_for(r'"listening","address":"([^"]+)"', seconds)

    def close(self):
        self.end(signal.SIGKILL)


@contextlib.contextmanager
def audited(*words, **options):
    """Starts a registry with an audit log. Returns it and the path of the file."""
    with tempfile.TemporaryDirectory() as top:
        path = f"{top}/audit.json"
        with serving("--audit-log", path, *words, **options) as server:
            yield server, path


def lines(*paths):
    found = []
    for path in paths:
        with open(path) as file:
            found += [json.loads(line) for line in file if line.strip()]
    return found


def has(path, count):
    """Waits until the file has a number of lines, and returns them."""
    assert until(lambda: len(lines(path)) >= count), lines(path)
    return lines(path)


def who_did_what():
    with users(f"acme:{CHEAP}", f"reader:{CHEAP}") as file, users("acme read,write,delete acme", "reader read acme/app") as rights:
        with audited("--htpasswd", file, "--rights", rights) as (server, path):
            secret, agent = basic("acme:secret"), {"User-Agent": "agent"}
            client = server.client({**secret, **agent})
            image = pushed(client, "acme/app", "v1")
            assert client.ask("POST", f"/v2/acme/b/blobs/uploads/?mount={sha256(b'layer')}&from=acme/app").status == 201
            assert client.ask("GET", "/v2/acme/app/manifests/v1").status == 200
            assert client.ask("GET", "/v2/acme/app/tags/list").status == 200
            assert client.ask("GET", f"/v2/acme/app/blobs/{sha256(b'layer')}", None, PARENT).status == 200
            assert server.client(basic("reader:secret")).ask("DELETE", "/v2/acme/app/manifests/v1").status == 403
            assert server.client(basic("acme:WRONGSECRET")).ask("GET", "/v2/acme/app/manifests/v1").status == 401
            assert server.client({"Authorization": "Bearer TOKENSECRET"}).ask("GET", "/v2/").status == 401
            assert client.ask("GET", "/v2/acme/app/manifests/v2?password=QUERYSECRET").status == 404
            assert client.ask("GET", "/v2/").status == client.ask("GET", "/livez").status == 200
            assert delete(client, "acme/app", "v1").status == 202 and delete(client, "acme/app", sha256(image)).status == 202
            found = has(path, 13)
            fields = [(line["action"], line["repository"], line.get("tag"), line.get("digest"), line["user"], line["status"], line["result"])
                      for line in found]
            layer, app, acme = sha256(b"layer"), "acme/app", "acme"
            assert sorted(fields, key=str) == sorted([
                ("push", app, None, sha256(b"{}"), acme, 201, "done"), ("push", app, None, layer, acme, 201, "done"),
                ("push", app, "v1", sha256(image), acme, 201, "done"), ("mount", "acme/b", None, layer, acme, 201, "done"),
                ("pull", app, "v1", sha256(image), acme, 200, "done"), ("list", app, None, None, acme, 200, "done"),
                ("pull", app, None, layer, acme, 200, "done"), ("delete", app, "v1", None, "reader", 403, "refused"),
                ("pull", app, "v1", None, None, 401, "refused"), ("login", None, None, None, None, 401, "refused"),
                ("pull", app, "v2", None, acme, 404, "refused"), ("delete", app, "v1", None, acme, 202, "done"),
                ("delete", app, None, sha256(image), acme, 202, "done")], key=str), fields
            mount, pull = ([line for line in found if line.get("method") == method and line.get("digest") == layer and line["repository"] == repo][0]
                           for method, repo in (("POST", "acme/b"), ("GET", app)))
            assert (mount["from"], mount["method"], mount["useragent"]) == ("acme/app", "POST", "agent"), mount
            assert (pull["trace"], pull["sent"], pull["received"]) == (TRACE, 5, 0) and pull["client"].startswith("127.0.0.1:"), pull
            assert all(re.fullmatch(r"\d{4}-\d\d-\d\dT\d\d:\d\d:\d\d\.\d{6}Z", line["time"]) for line in found)
            assert len({line["trace"] for line in found}) == 13 and os.stat(path).st_mode & 0o777 == 0o600
            with open(path) as text, open(path) as again:
                assert "SECRET" not in text.read() and secret["Authorization"].split()[1] not in again.read()
            assert "SECRET" not in server.logged()


def the_registry_s_own_deletes_have_lines():
    with audited(*KEEP) as (server, path):
        image = pushed(server.client(), "acme/app", sha256(manifest_of(b"{}", [b"layer"])))
        own = [line for line in has(path, 6) if line["action"] == "keep-untagged"]
        assert {line["digest"] for line in own} == {sha256(data) for data in (image, b"{}", b"layer")}
        assert all(line["user"] is None and line["repository"] == "acme/app" and "client" not in line for line in own), own


def tags_that_rules_remove_have_lines():
    with users("acme/app v* pushed=2s") as rules, audited("--retention", rules) as (server, path):
        image = pushed(server.client(), "acme/app", "v1")
        line = has(path, 4)[3]
        found = [line.get(name) for name in ("action", "repository", "tag", "digest", "user", "result", "client")]
        assert found == ["retention", "acme/app", "v1", sha256(image), None, "done", None], line


def robots_have_lines_and_names():
    """Those that are made and revoked, and what they push; their events name them, too."""
    with tempfile.TemporaryDirectory() as top, Receiver().begin() as receiver, receivers_file(receiver.entry()) as file:
        path = f"{top}/audit.json"
        with serving_robots("--audit-log", path, "--events", file) as (server, control):
            secret = add(control, "ci", "read,write:acme")
            push(server.client(basic(f"robot+ci:{secret}")), "acme/app", b"1")
            assert [event["actor"] for event in receiver.has(1)] == [{"name": "robot+ci"}]
            robot(control, "revoke", "ci")
            found = [(line["action"], line.get("robot"), line["user"], line["result"]) for line in has(path, 3)]
            assert found == [("robot-add", "robot+ci", None, "done"), ("push", None, "robot+ci", "done"), ("robot-revoke", "robot+ci", None, "done")], found
            with open(path) as text:
                assert secret[-64:] not in text.read() + json.dumps(receiver.has(1)) + server.logged()


def no_line_is_lost_by_a_rotation():
    with audited() as (server, path):
        pushed(server.client(), "acme/app", "v1")
        stop = threading.Event()
        def work(_):
            client, count = server.client(), 0
            while not stop.is_set():
                assert client.ask("HEAD", "/v2/acme/app/manifests/v1").status == 200
                count += 1
            return count
        with concurrent.futures.ThreadPoolExecutor(8) as pool:
            counts = [pool.submit(work, number) for number in range(8)]
            for number in range(5):
                time.sleep(0.1)
                os.rename(path, f"{path}.{number}")
                server.reload(AGAIN)
            stop.set()
            total = sum(count.result() for count in counts)
        by_signal(server)
        files = [f"{path}.{number}" for number in range(5)] + [path]
        assert len(lines(*files)) == total + 3, (len(lines(*files)), total)
        assert sum(1 for file in files if lines(file)) > 3


def a_file_that_cannot_be_written_stops_nobody():
    with audited() as (server, path):
        client = server.client()
        push(client, "acme/app", b"1")
        has(path, 1)
        os.rename(path, f"{path}.1")
        os.mkdir(path)
        server.reload(f"cannot open the audit log again: {path}: Is a directory.*: kept the file that was open")
        push(client, "acme/app", b"2")
        has(f"{path}.1", 2)
        os.rmdir(path)
        os.symlink("/dev/full", path)
        server.reload(AGAIN)
        push(client, "acme/app", b"3")
        assert until(lambda: server.metric("registryd_audit_lost_total") == 1)
        assert "cannot write the audit log" in server.logged() and "lost=1" in server.logged()
        os.remove(path)
        server.reload(AGAIN)
        push(client, "acme/app", b"4")
        assert has(path, 1)[0]["digest"] == sha256(b"4")
    check(ended("--audit-log", "/none/audit.json"), 1, "cannot open the audit log: /none/audit.json: No such file")


def each_line_of_a_request_has_its_trace():
    with folder() as path, serving("--data", path) as server:
        client = server.client(PARENT)
        push(client, "acme/app", b"1")
        server.wait_for(f"method=POST path=\"/v2/acme/app/blobs/uploads/\" .*trace={TRACE}")
        assert client.ask("DELETE", f"/v2/acme/app/blobs/{sha256(b'1')}").status == 202
        server.wait_for(f'request{{trace="{TRACE}"}}: .*removed an empty repository')
        other = server.client({"traceparent": "00-nonsense"})
        push(other, "acme/other", b"1")
        trace = server.wait_for(r'path="/v2/acme/other/blobs/uploads/" .*trace=([0-9a-f]{32}) ')
        assert trace != TRACE and "nonsense" not in server.logged()
    with contextlib.closing(JsonServer("--log-format", "json")) as server:
        client = server.client(PARENT)
        push(client, "acme/app", b"1")
        assert client.ask("DELETE", f"/v2/acme/app/blobs/{sha256(b'1')}").status == 202
        assert until(lambda: server.logged().count('"method":"DELETE"') == 1)
        found = [json.loads(line) for line in server.logged().splitlines() if line.startswith("{")]
        of_request = [line for line in found if line["fields"].get("method") in ("POST", "DELETE")]
        assert [line["fields"]["trace"] for line in of_request] == [TRACE] * 2, of_request
        removed = [line for line in found if "removed an empty" in line["fields"].get("message", "")]
        assert removed and removed[0]["span"]["trace"] == TRACE, removed


def details_are_of_what_was_asked_for():
    for words, app, other in (((), True, True), (("--debug-only", "acme/app"), True, False), (("--debug-only", "other", "--debug-only", "x"), False, False)):
        with users(f"acme:{CHEAP}") as file, serving("--htpasswd", file, "--log-level", "debug", *words) as server:
            client = server.client({**basic("acme:secret"), "Cookie": "COOKIESECRET", "X-Header": "shown"})
            for repo in ("acme/app/web", "acme/apple"):
                push(client, repo, b"1")
                assert client.ask("GET", f"/v2/{repo}/manifests/v1").status == 404
            server.wait_for('path="/v2/acme/apple/manifests/v1"')
            debug = [line for line in server.logged().splitlines() if " DEBUG " in line]
            for repo, is_shown in (("acme/app/web", app), ("acme/apple", other)):
                found = [line for line in debug if repo in line]
                assert bool(found) == is_shown, (words, repo, debug)
            assert any("MANIFEST_UNKNOWN" in line for line in debug) == (app or other), debug
            assert any("x-header: shown" in line for line in debug) == (app or other), debug
            assert all("request{trace=" in line and " registryd::" in line for line in debug), debug
            assert "COOKIESECRET" not in server.logged() and basic("acme:secret")["Authorization"].split()[1] not in server.logged()
    assert ended("--debug-only", "Acme")[0] == 2


TESTS = [who_did_what, the_registry_s_own_deletes_have_lines, tags_that_rules_remove_have_lines, robots_have_lines_and_names,
         no_line_is_lost_by_a_rotation, a_file_that_cannot_be_written_stops_nobody, each_line_of_a_request_has_its_trace, details_are_of_what_was_asked_for]


def main():
    names = sys.argv[1:]
    tests = [test for test in TESTS if not names or test.__name__ in names]
    wrong = sum(played(test) for test in tests)
    print(f"audits: {len(tests) - wrong} passed, {wrong} failed")
    sys.exit(wrong > 0)


if __name__ == "__main__":
    main()
