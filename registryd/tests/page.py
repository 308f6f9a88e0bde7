#!/usr/bin/env python3
"""Opens the page of a registry in Chromium, and checks that it shows what was pushed. A second server gives the page names that no
registry has, which must not become markup. Manifests of hostile media types must not run scripts, also those that an older version
stored. With `--screenshot FILE` it writes a picture of the page instead."""
import contextlib, html, http.server, json, re, shutil, sqlite3, sys, tempfile, threading

from browser import chromium
from limits import CHEAP, basic, users
from playing import play, until
from referrers import descriptor, index, put
from restarts import folder, pushed
from server import serving, sha256

HOSTILE = '<img src="x" onerror="document.title=1"></td><script>document.title=2</script>&amp;'


def shown(dom):
    """Returns the texts of a document, without its markup, styles and script."""
    dom = re.sub(r"<(style|script)>.*?</\1>", " ", dom, flags=re.DOTALL)
    return " ".join(html.unescape(re.sub(r"<[^>]*>", " ", dom)).split())


@contextlib.contextmanager
def a_registry():
    """A registry with two images and a slot that was freed."""
    with folder() as path, serving("--data", path, "--sweep-ms", "100", tenants=("acme=100000", "other=5000000,7")) as server:
        client = server.client()
        old, new = (pushed(client, "acme/web", tag, layer) for tag, layer in (("v1", b"one" * 5000), ("v2", b"two" * 5000)))
        pushed(client, "acme/tools/build", "latest", b"three" * 9000)
        report = index(subject=descriptor(new), artifactType="application/spdx+json")
        put(client, "acme/web", report)
        for what in (f"manifests/{sha256(old)}", f"blobs/{sha256(b'one' * 5000)}"):
            assert client.ask("DELETE", f"/v2/acme/web/{what}").status == 202
        assert until(lambda: server.metric("registryd_freed_slots_total") == 1)
        yield server, sha256(new), sha256(report)


def what_was_pushed_is_shown():
    with a_registry() as (server, manifest, report):
        text = shown(chromium(server.address, "--dump-dom"))
        for word in ("acme", "60.0 kB of 100.0 kB", "3 of 524288 blobs", "0 of 7 blobs", "2 repositories", "acme/web", "acme/tools/build", f"v2 {manifest}", f"referrer {report} application/spdx+json", "1 manifest", "2 manifests", "other",
                     "No repository.", "freed 1 slots", "Free slots 1048573 of 1048576", "Data durable", "Store not verified" if "NOT VERIFIED" in server.logged() else "Store verified",
                     "Last commit of tags", "Last sync of the log"):
            assert word in text, (word, text)
        assert "v1" not in text.split() and "Cannot" not in text and "Loading" not in text, text


class Hostile(http.server.BaseHTTPRequestHandler):
    """Serves the page of a registry with a state that no registry has."""
    page = policy = None

    def do_GET(self):
        referrer = {"digest": HOSTILE, "media_type": HOSTILE, "artifact_type": None}
        tag = {"name": HOSTILE, "digest": HOSTILE, "media_type": HOSTILE, "referrers": [referrer], "more_referrers": True}
        state = {"version": HOSTILE, "time": 1, "started": 0, "durable": True, "slots": 1, "free_slots": 1, "uploads": 0, "folder": None, "store": {"verified": False},
                 "collector": {"sweeps": 0, "freed": 0, "held": 0, "last": []}, "scrub": {"last": None, "damage": [{"file": HOSTILE, "byte": 7, "what": HOSTILE}],
                           "contents": {"files": 1, "read": 0, "bytes": 0, "damaged": 2,
                                        "damage": [{"file": HOSTILE, "digest": HOSTILE, "what": HOSTILE, "repositories": [HOSTILE], "time": 1}]}},
                 "tenants": [{"name": HOSTILE, "used": 0, "quota": 0, "blobs": 0, "share": None, "repositories": 1}]}
        repos = {"more": False, "repositories": [{"name": HOSTILE, "manifests": 1, "tags": [tag], "more_tags": False}]}
        body = self.page if self.path == "/" else json.dumps(repos if "tenant" in self.path else state).encode()
        self.send_response(200)
        self.send_header("Content-Type", "text/html" if self.path == "/" else "application/json")
        if self.path == "/":
            self.send_header("Content-Security-Policy", self.policy)
        self.end_headers()
        self.wfile.write(body)

    def log_message(self, *_):
        pass


def names_are_no_markup():
    with serving() as server:
        answer = server.client().ask("GET", "/")
    for policy in (answer["Content-Security-Policy"], "default-src * 'unsafe-inline'"):
        Hostile.page, Hostile.policy = answer.body, policy
        with http.server.ThreadingHTTPServer(("127.0.0.1", 0), Hostile) as fake:
            threading.Thread(target=fake.serve_forever, daemon=True).start()
            dom = chromium("%s:%d" % fake.server_address, "--dump-dom")
            fake.shutdown()
        assert "<title>registryd</title>" in dom and "<img" not in dom, dom
        assert shown(dom).count(HOSTILE) == 13, shown(dom)
        assert '<dt>Damage of the log</dt><dd class="bad">' in dom, dom


# A manifest that is a page: its script reads the state of all tenants, and shows that it did.
SCRIPT = "document.title = 'it ran'; fetch('/status').then(reply => reply.text()).then(text => { document.title = 'it read ' + text })"
PAGES = ("text/html", "TEXT/HTML", "text/javascript", "text/xml", "image/svg+xml", "application/xhtml+xml", "application/xml", "multipart/related")


def hostile_manifest(kind=None):
    named = {"mediaType": kind} if kind else {}
    return json.dumps({"schemaVersion": 2, **named, "manifests": [], "annotations": {"x": f"<script>{SCRIPT}</script>"}}).encode()


def a_manifest_is_no_page():
    with serving() as server:
        client = server.client()
        for kind in PAGES:
            for body, headers in ((hostile_manifest(), {"Content-Type": kind}), (hostile_manifest(kind), {})):
                answer = client.ask("PUT", "/v2/acme/web/manifests/v1", body, headers)
                assert answer.status == 400 and answer.code() == "MANIFEST_INVALID", (kind, headers, answer.status)
        assert client.ask("GET", "/v2/acme/web/manifests/v1").status == 404


def a_manifest_of_an_older_version_is_no_page():
    """The script would run in the session of an administrator who may read the state of all tenants."""
    with folder() as path, users(f"acme:{CHEAP}", f"admin:{CHEAP}") as file, users("acme read,write acme", "admin read *") as rights:
        words = ("--data", path, "--htpasswd", file, "--rights", rights, "--metrics-user", "admin")
        body = hostile_manifest()
        at = f"/v2/acme/web/manifests/{sha256(body)}"
        with serving(*words) as server:
            assert server.client(basic("acme:secret")).ask("PUT", at, body).status == 201
            assert server.end() == 0
        for kind in ("text/html", "application/xhtml+xml"):
            with contextlib.closing(sqlite3.connect(f"{path}/registry.db")) as rows, rows:
                assert rows.execute("UPDATE manifests SET media_type = ?", (kind,)).rowcount == 1
            with serving(*words) as server:
                answer = server.client(basic("admin:secret")).ask("GET", at)
                assert (answer.status, answer["Content-Type"], answer.body) == (200, kind, body)
                dom = chromium(f"admin:secret@{server.address}", "--dump-dom", path=at)
                server.wait_for(f'path="{at}" status=200 .*user="admin"')
                assert "it r" not in re.sub(r"<script>.*?</script>", "", dom), dom
                assert 'path="/status"' not in server.logged(), (kind, dom)
                assert server.end() == 0


def each_reply_restricts_a_browser():
    with serving() as server:
        client = server.client()
        put(client, "acme/web", index())
        paths = ["/v2/", "/v2/_catalog", "/v2/acme/web/tags/list", f"/v2/acme/web/manifests/{sha256(index())}", "/v2/acme/web/manifests/none",
                 f"/v2/acme/web/referrers/{sha256(b'x')}", f"/v2/acme/web/blobs/{sha256(b'x')}", "/status", "/metrics", "/healthz", "/none"]
        for path in paths:
            for method in ("GET", "HEAD", "POST"):
                answer = client.ask(method, path)
                given = answer["X-Content-Type-Options"], answer["Content-Security-Policy"]
                assert given == ("nosniff", "default-src 'none'; sandbox"), (method, path, given)
        page = client.ask("GET", "/")
        assert page["X-Content-Type-Options"] == "nosniff" and "script-src 'sha256-" in page["Content-Security-Policy"]


def main():
    if sys.argv[1:2] == ["--screenshot"]:
        with a_registry() as (server, *_), tempfile.TemporaryDirectory() as place:
            chromium(server.address, "--window-size=1000,900", f"--screenshot={place}/page.png")
            shutil.move(f"{place}/page.png", sys.argv[2])
        return
    play("page", [what_was_pushed_is_shown, names_are_no_markup, a_manifest_is_no_page, a_manifest_of_an_older_version_is_no_page,
                  each_reply_restricts_a_browser])


if __name__ == "__main__":
    main()
