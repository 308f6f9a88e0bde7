#!/usr/bin/env python3
"""Tests the JSON of `/status`, the page that shows it, who may read both, and the dashboard's metrics."""
import base64, hashlib, json, os, re, shutil, tempfile, time
from unittest import mock

import server as servers
from crash.paths import log_of
from limits import CHEAP, basic, users
from playing import play, until
from referrers import descriptor, index, put
from restarts import by_signal, folder, opened, push, pushed
from server import INDEX, MANIFEST, TOP, serving, sha256

VIEWS = ["/", "/status", "/status?tenant=acme", "/metrics"]


def status_of(client, query=""):
    answer = client.ask("GET", f"/status{query}")
    assert (answer.status, answer["Content-Type"], answer["Cache-Control"]) == (200, "application/json", "no-store"), answer.status
    return json.loads(answer.body)


def tenant_of(status, name):
    return next(tenant for tenant in status["tenants"] if tenant["name"] == name)


def the_state_is_that_of_the_store():
    with serving("--slots", "40", tenants=("acme=1000000,9", "poor=5")) as server:
        client = server.client()
        image = pushed(client, "acme/one", "v1", b"layer")
        opened(client, "acme/two")
        status = status_of(client)
        acme = {"name": "acme", "used": len(b"{}layer"), "quota": 1000000, "blobs": 2, "share": 9, "repositories": 2, "manifests": 1,
                "most_manifests": None, "manifest_bytes": len(image), "most_manifest_bytes": 16 << 20, "tags": 1, "most_tags": None}
        assert tenant_of(status, "acme") == acme, tenant_of(status, "acme")
        poor = {"name": "poor", "used": 0, "quota": 5, "blobs": 0, "share": 20, "repositories": 0, "manifests": 0,
                "most_manifests": None, "manifest_bytes": 0, "most_manifest_bytes": 16 << 20, "tags": 0, "most_tags": None}
        assert tenant_of(status, "poor") == poor, tenant_of(status, "poor")
        assert (status["slots"], status["free_slots"], status["uploads"], status["durable"]) == (40, 38, 1, False)
        assert status["bounds"] == {"manifests": None, "manifest_bytes": None, "tags": None}
        assert status["folder"] is None and abs(status["time"] - time.time()) < 5 and status["time"] - status["started"] < 60
        acme = status_of(client, "?tenant=acme")
        tag = {"name": "v1", "digest": sha256(image), "media_type": MANIFEST, "referrers": [], "more_referrers": False}
        assert acme == {"tenant": "acme", "more": False, "repositories": [
            {"name": "acme/one", "manifests": 1, "tags": [tag], "more_tags": False},
            {"name": "acme/two", "manifests": 0, "tags": [], "more_tags": False}]}, acme
        assert status_of(client, "?tenant=poor")["repositories"] == []
        assert client.ask("GET", "/status?tenant=nobody").status == 404


def what_the_collector_freed_is_shown():
    with serving("--sweep-ms", "0") as server:
        client = server.client()
        push(client, "acme/one", b"garbage")
        assert client.ask("DELETE", f"/v2/acme/one/blobs/{sha256(b'garbage')}").status == 202
        assert until(lambda: status_of(client)["collector"]["freed"] == 1)
        collector = status_of(client)["collector"]
        assert collector["sweeps"] >= 1 and collector["held"] == 0
        assert [(sweep["freed"], sweep["held"]) for sweep in collector["last"]] == [(1, 0)]
        assert abs(collector["last"][0]["time"] - time.time()) < 10


def a_folder_has_commits_and_lengths():
    with folder() as path:
        with serving("--data", path, "--min-free", "1") as server:
            client = server.client()
            pushed(client)
            status = status_of(client)
            assert status["durable"] and abs(status["folder"]["last_commit"] - time.time()) < 10
            kept = status["folder"]
            assert kept["commits"] == server.metric("registryd_database_commits_total") > 0
            assert kept["last_commit"] == server.metric("registryd_last_commit_timestamp_seconds")
            assert kept["syncs"] == server.metric("registryd_syncs_total") > 0
            assert kept["last_sync"] == server.metric("registryd_last_sync_seconds") and abs(kept["last_sync"] - time.time()) < 10
            assert kept["log_bytes"] == log_of(path).length() and kept["min_free_bytes"] == 1 < kept["free_bytes"]
            by_signal(server)
        with serving("--data", path) as server:
            assert [repo["name"] for repo in status_of(server.client(), "?tenant=acme")["repositories"]] == ["acme/one"]


def repositories_have_pages():
    with serving() as server:
        client = server.client()
        for number in range(103):
            opened(client, f"acme/r{number:03}") if number < 60 else push(client, f"acme/r{number:03}", b"x")
        for number in range(22):
            pushed(client, "acme/r000", f"t{number:02}")
        first = status_of(client, "?tenant=acme&n=1000")
        assert (len(first["repositories"]), first["more"]) == (100, True)
        assert (len(first["repositories"][0]["tags"]), first["repositories"][0]["more_tags"]) == (20, True)
        second = status_of(client, "?tenant=acme&last=acme/r099")
        assert ([repo["name"] for repo in second["repositories"]], second["more"]) == (["acme/r100", "acme/r101", "acme/r102"], False)
        two = status_of(client, "?tenant=acme&last=acme%2Fr001&n=2")
        assert ([repo["name"] for repo in two["repositories"]], two["more"]) == (["acme/r002", "acme/r003"], True)


def tags_have_referrers():
    with serving() as server:
        client = server.client()
        image = pushed(client, "acme/one")
        push(client, "acme/one", b"{}")
        report = index(subject=descriptor(image), artifactType="application/spdx+json")
        put(client, "acme/one", report)
        reports = [{"digest": sha256(report), "media_type": INDEX, "artifact_type": "application/spdx+json"}]
        tag = {"name": "v1", "digest": sha256(image), "media_type": MANIFEST, "referrers": reports, "more_referrers": False}
        assert status_of(client, "?tenant=acme")["repositories"][0]["tags"] == [tag]
        digests = [sha256(report)]
        for number in range(8):
            content = index(subject=descriptor(image), annotations={"number": str(number)})
            put(client, "acme/one", content)
            digests.append(sha256(content))
        tag = status_of(client, "?tenant=acme")["repositories"][0]["tags"][0]
        assert [one["digest"] for one in tag["referrers"]] == sorted(digests)[:8] and tag["more_referrers"]
        assert client.ask("DELETE", f"/v2/acme/one/manifests/{digests[0]}").status == 202
        tag = status_of(client, "?tenant=acme")["repositories"][0]["tags"][0]
        assert [one["digest"] for one in tag["referrers"]] == sorted(digests[1:]) and not tag["more_referrers"]


def the_page_runs_its_own_script_alone():
    """The policy names the hashes of the page's style and script (Content Security Policy Level 3, 2.3.1)."""
    with serving() as server:
        answer = server.client().ask("GET", "/")
        assert (answer.status, answer["Content-Type"]) == (200, "text/html; charset=utf-8")
        policy = dict(rule.strip().split(" ", 1) for rule in answer["Content-Security-Policy"].split(";"))
        for element in ("style", "script"):
            texts = re.findall(f"<{element}>(.*?)</{element}>", answer.body.decode(), re.DOTALL)
            sums = ["'sha256-" + base64.b64encode(hashlib.sha256(text.encode()).digest()).decode() + "'" for text in texts]
            assert policy[f"{element}-src"].split() == sums and len(sums) == 1, element
        assert policy["default-src"] == policy["frame-ancestors"] == "'none'" and policy["connect-src"] == "'self'"
        assert answer["X-Content-Type-Options"] == "nosniff"
        head = server.client().ask("HEAD", "/")
        assert (head.status, head.body, head["Content-Length"]) == (200, b"", str(len(answer.body)))
        for path in VIEWS:
            refused = server.client().ask("POST", path)
            assert (refused.status, refused["Allow"]) == (405, "GET, HEAD"), path


def only_the_administrator_may_read():
    with users(f"acme:{CHEAP}", f"admin:{CHEAP}") as file:
        def statuses(server, name):
            return {server.client(basic(f"{name}:secret")).ask("GET", path).status for path in VIEWS}
        with serving("--htpasswd", file) as server:
            assert statuses(server, "acme") == statuses(server, "admin") == {403}
        with serving("--htpasswd", file, "--metrics-user", "admin") as server:
            assert (statuses(server, "acme"), statuses(server, "admin")) == ({403}, {200})
            answer = server.client().ask("GET", "/")
            assert answer.status == 401 and answer["WWW-Authenticate"].startswith("Basic ")
        with serving("--metrics-listen", "127.0.0.1:0") as server:
            assert {server.client().ask("GET", path).status for path in VIEWS} == {404}
            watcher = servers.Client(server.wait_for(r"serving metrics address=(\S+)"))
            assert {watcher.ask("GET", path).status for path in VIEWS} == {200}


def the_store_is_verified_if_a_record_names_its_program():
    with tempfile.TemporaryDirectory() as path:
        program = shutil.copy(servers.BLOBD, f"{path}/blobd")
        with open(program, "rb") as file:
            own = hashlib.sha256(file.read()).hexdigest()
        for named in (own, own[::-1]):
            with open(f"{program}.proved", "w") as file:
                file.write(f"sha256 {named}\ncommit 12ab\nsources 34cd\ntoolchain kit 1\nproved-by rt ci\ndate today\n")
            with mock.patch.object(servers, "BLOBD", program), serving() as server:
                store = status_of(server.client())["store"]
                assert (store["verified"], server.metric("registryd_store_verified")) == (named == own, named == own)
                assert ("NOT VERIFIED" in server.logged()) == (named != own)
                if named == own:
                    assert store == {"verified": True, "commit": "12ab", "toolchain": "kit 1", "proved_by": "rt ci", "date": "today"}


def the_dashboard_shows_metrics_that_exist():
    """Each metric of docs/grafana.json, and each label of its queries."""
    with open(f"{os.path.dirname(TOP)}/docs/grafana.json") as file:
        board = json.load(file)
    queries = [target["expr"] for panel in board["panels"] for target in panel["targets"]]
    with folder() as path, serving("--data", path, tenants=["acme=1000000,9"]) as server:
        pushed(server.client())
        text = server.client().ask("GET", "/metrics").body.decode()
    there = {re.match(r"\w+", line).group() for line in text.splitlines() if not line.startswith("#")}
    named = set(re.findall(r"registryd_\w+", " ".join(queries)))
    assert named <= there, named - there
    assert there - named == {"registryd_request_seconds_sum", "registryd_request_seconds_count"}, there - named
    labels = {label for group in re.findall(r"by \(([^)]*)\)", " ".join(queries)) for label in group.split(", ")}
    assert labels == {"status", "method", "le"} and all(f'{label}="' in text for label in labels), labels


def main():
    play("views", [
        the_state_is_that_of_the_store, what_the_collector_freed_is_shown, a_folder_has_commits_and_lengths, repositories_have_pages,
        tags_have_referrers,
        the_page_runs_its_own_script_alone, the_store_is_verified_if_a_record_names_its_program, only_the_administrator_may_read,
        the_dashboard_shows_metrics_that_exist])


if __name__ == "__main__":
    main()
