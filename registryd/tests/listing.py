#!/usr/bin/env python3
"""Tests lists while 300 clients push and delete tags and manifests at once, and what is there after a kill in the middle. Each list has in
each pass what nobody changes, in order and once."""
import http.client, json, random, threading, time

from playing import play
from referrers import descriptor
from restarts import by_kill_of_both, by_signal, folder
from server import INDEX, serving, sha256

CLIENTS, SECONDS = 300, 6
REPOS = [f"acme/r{number}" for number in range(4)]
KEPT = [f"kept{number:03}" for number in range(60)]
TYPE = {"Content-Type": INDEX}


def content(name, subject=None):
    """Returns an index that lists nothing."""
    document = {"schemaVersion": 2, "mediaType": INDEX, "manifests": [], "annotations": {"name": name}}
    return json.dumps(document if subject is None else {**document, "subject": subject, "artifactType": "a/b"}).encode()


IMAGE = content("image")
SUBJECT = descriptor(IMAGE, INDEX)


def put(client, repo, reference, data, statuses=(201,)):
    status = client.ask("PUT", f"/v2/{repo}/manifests/{reference}", data, TYPE).status
    assert status in statuses, (repo, reference, status)
    return status


def fill(client):
    """Pushes what nobody changes."""
    for repo in REPOS:
        put(client, repo, "image", IMAGE)
        for name in KEPT:
            put(client, repo, name, content(name, SUBJECT))
    for name in KEPT:
        put(client, f"acme/{name}", "v1", IMAGE)


def listed(client, path, member):
    """Returns the items of all pages of a list."""
    found = []
    while path:
        answer = client.ask("GET", path)
        assert answer.status == 200, (path, answer.status)
        found += json.loads(answer.body)[member]
        path = answer["Link"] and answer["Link"][1:].split(">")[0]
    return found


def check_list(found, kept):
    assert found == sorted(set(found)), "the list is not in order, or has an item twice"
    assert set(kept) <= set(found), set(kept) - set(found)


def check_lists(client, size):
    for repo in REPOS:
        check_list(listed(client, f"/v2/{repo}/tags/list?n={size}", "tags"), KEPT)
        referrers = listed(client, f"/v2/{repo}/referrers/{sha256(IMAGE)}?n={size}", "manifests")
        check_list([one["digest"] for one in referrers], [sha256(content(name, SUBJECT)) for name in KEPT])
    check_list(listed(client, f"/v2/_catalog?n={size}", "repositories"), [*REPOS, *(f"acme/{name}" for name in KEPT)])


class Runner(threading.Thread):
    """A thread that ends with its failure. After `killed` is set, a connection that ends is none."""

    def __init__(self, work, killed):
        super().__init__()
        self.work, self.killed, self.fault = work, killed, None

    def run(self):
        try:
            self.work()
        except (OSError, http.client.HTTPException) as fault:
            self.fault = None if self.killed.is_set() else repr(fault)
        except Exception as fault:
            self.fault = repr(fault)


class Changer:
    """A client that has tags of its own in one repository. `known` has the digest that each tag was acknowledged with, or nothing after its
    delete was. A tag that a request without a reply was about is missing."""

    def __init__(self, server, number):
        self.client, self.number, self.random = server.client(), number, random.Random(number)
        self.repo, self.known = REPOS[number % len(REPOS)], {}

    def work(self, end):
        turn = 0
        while time.time() < end:
            turn += 1
            tag = f"c{self.number:03}-{self.random.randrange(3)}"
            path = f"/v2/{self.repo}/manifests/"
            before = self.known.pop(tag, None)
            if before is None or self.random.random() < 0.4:
                data = content(f"{tag} {turn}", SUBJECT if turn % 2 else None)
                put(self.client, self.repo, tag, data)
                self.known[tag] = sha256(data)
            else:
                reference = before if self.random.random() < 0.5 else tag
                status = self.client.ask("DELETE", path + reference).status
                assert status == 202, (reference, status)
                self.known[tag] = None
            self.check(tag)

    def check(self, tag):
        answer = self.client.ask("GET", f"/v2/{self.repo}/manifests/{tag}")
        digest = sha256(answer.body) if answer.status == 200 else None
        assert digest == self.known[tag] and answer.status in (200, 404), (self.repo, tag, answer.status, digest, self.known[tag])


def totals(client):
    tenants = json.loads(client.ask("GET", "/status").body)["tenants"]
    acme, = (tenant for tenant in tenants if tenant["name"] == "acme")
    return acme["manifests"], acme["tags"]


def counted(client):
    """Returns the number of tags that the lists have."""
    repos = listed(client, "/v2/_catalog", "repositories")
    return sum(len(listed(client, f"/v2/{repo}/tags/list", "tags")) for repo in repos)


def lists_are_read_while_tags_change(way, *words):
    """After a kill, each tag is as its last reply said."""
    with folder() as path:
        words = ("--data", path, *words) if way else words
        killed = threading.Event()
        with serving(*words) as server:
            fill(server.client())
            end = time.time() + SECONDS
            changers = [Changer(server, number) for number in range(CLIENTS)]
            def read(size):
                client = server.client()
                while time.time() < end:
                    check_lists(client, size)
            work = [lambda one=one: one.work(end) for one in changers] + [lambda size=size: read(size) for size in (3, 7, 50, 1000)]
            runners = [Runner(one, killed) for one in work]
            for runner in runners:
                runner.start()
            if way is by_kill_of_both:
                time.sleep(SECONDS / 2)
                killed.set()
                way(server)
            for runner in runners:
                runner.join()
            faults = [runner.fault for runner in runners if runner.fault]
            assert not faults, (len(faults), faults[:3])
            if way is not by_kill_of_both:
                check_lists(server.client(), 100)
                assert totals(server.client())[1] == counted(server.client())
                by_signal(server)
        if not way:
            return
        with serving(*words) as server:
            client = server.client()
            check_lists(client, 100)
            assert totals(client)[1] == counted(client)
            for changer in changers:
                changer.client = client
                for tag in changer.known:
                    changer.check(tag)
            by_signal(server)


def pushes_at_once_exceed_no_bound():
    """Of tags and of manifests, with the clients of a crowd."""
    with folder() as path, serving("--data", path, "--tags", "40", "--manifests", "50") as server:
        statuses, lock = [], threading.Lock()
        def push(number):
            client = server.client()
            for turn in range(4):
                status = put(client, REPOS[number % 4], f"c{number}-{turn}", content(f"{number} {turn}"), (201, 403, 429))
                with lock:
                    statuses.append(status)
        threads = [threading.Thread(target=push, args=[number]) for number in range(100)]
        for thread in threads:
            thread.start()
        for thread in threads:
            thread.join()
        client = server.client()
        assert (statuses.count(201), len(statuses)) == (40, 400), statuses.count(201)
        assert totals(client) == (40, 40) and counted(client) == 40, (totals(client), counted(client))
        # Deletes make room, for as many.
        for repo in REPOS:
            for tag in listed(client, f"/v2/{repo}/tags/list", "tags")[:3]:
                digest = client.ask("HEAD", f"/v2/{repo}/manifests/{tag}")["Docker-Content-Digest"]
                assert client.ask("DELETE", f"/v2/{repo}/manifests/{digest}").status == 202
        gone = 40 - totals(client)[1]
        assert totals(client) == (40 - gone, 40 - gone) and gone > 0, totals(client)
        for number in range(gone):
            put(client, "acme/new", f"n{number}", content(f"n{number}"))
        assert put(client, "acme/new", "more", content("more"), (403, 429)) and totals(client) == (40, 40)
        by_signal(server)


def main():
    play("listing", [
        (lists_are_read_while_tags_change, None),
        (lists_are_read_while_tags_change, by_signal),
        (lists_are_read_while_tags_change, by_kill_of_both),
        (lists_are_read_while_tags_change, by_kill_of_both, "--keep-untagged", "1"),
        pushes_at_once_exceed_no_bound])


if __name__ == "__main__":
    main()
