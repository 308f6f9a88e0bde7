#!/usr/bin/env python3
"""Tests that the log of a registry is rewritten while it serves, by itself and at SIGUSR1, and that everything is there after that."""
import os, random, signal, time

from crash.paths import log_of
from playing import play, until
from restarts import CONFIG, PATCH, by_kill_of_both, by_signal, folder, opened, pulled, push, pushed, tags_of
from server import MANIFEST, Server, index_of, push_index, serving, sha256

MIB = 1 << 20


def fill(client, repo, count):
    """Pushes manifests of a MiB, whose bytes are in the log."""
    for number in range(count):
        push_index(client, repo, index_of(f"{repo} {number}", MIB))


def litter(client, count=2, repo="acme/litter", length=MIB):
    """Pushes manifests of a MiB, and deletes each at once. Each ends a file of the log, and its delete is in the next file: a rewriting
    leaves out all but the last. It happens by itself only if less than this is needed."""
    for number in range(count):
        at = push_index(client, repo, index_of(number, length))
        assert client.ask("DELETE", at).status == 202


def wait_for_base(path, before=None):
    """Waits until the log has a new base, and no file that it replaces is left. Returns the names of the log's files."""
    def names():
        return [file.name for file in log_of(path).paths]
    def has_no_others():
        return {name for name in os.listdir(path) if name.startswith(("log", "base"))} == set(names())
    assert until(lambda: log_of(path).base != before and has_no_others(), 60), sorted(os.listdir(path))
    return names()


def rewrite(server, path):
    """Asks for a rewriting, and waits until it has ended. Returns the names of the log's files."""
    before = log_of(path).base
    server.process.send_signal(signal.SIGUSR1)
    return wait_for_base(path, before)


def check(server, images, at, data):
    """Checks the images by tag and by digest, their blobs, that there are no others, and an open upload of the first half of the data."""
    client = server.client()
    for tag, (image, layer) in images.items():
        assert pulled(client, "acme/one", tag) == pulled(client, "acme/one", sha256(image)) == (image, MANIFEST), tag
        for blob in (CONFIG, layer):
            assert client.ask("GET", f"/v2/acme/one/blobs/{sha256(blob)}").body == blob, tag
    assert tags_of(client, "acme/one") == sorted(images) and tags_of(client, "acme/gone") == 404
    status = client.ask("GET", at)
    assert (status.status, status["Range"]) == (204, f"0-{len(data) // 2 - 1}"), (status.status, status["Range"])


def everything_is_there_after_a_signal():
    """Everything that was pushed is there, and nothing that was deleted, after two rewritings and after a restart."""
    data = random.Random(7).randbytes(300_000)
    with folder() as path:
        with serving("--data", path, "--sync", "each") as server:
            client, images = server.client(), {}
            at = opened(client)
            assert client.ask("PATCH", at, data[:len(data) // 2], PATCH).status == 202
            for number in range(20):
                tag, layer = f"v{number:02}", random.Random(number).randbytes(20_000 * number)
                images[tag] = pushed(client, tag=tag, layer=layer), layer
            gone = pushed(client, "acme/gone", layer=b"gone")
            assert client.ask("DELETE", f"/v2/acme/gone/manifests/{sha256(gone)}").status == 202
            for number in range(2):
                litter(client)
                before = log_of(path).length()
                names = rewrite(server, path)
                assert len(names) == 2 and names[0].startswith("base.") and names[1].startswith("log."), names
                assert log_of(path).length() < before - (MIB >> 1), (before, log_of(path).length())
                check(server, images, at, data)
                images[f"w{number}"] = pushed(client, tag=f"w{number}", layer=b"w"), b"w"
            assert "asked the store to rewrite its log" in server.logged() and "/base." in server.logged()
            by_kill_of_both(server)
        with serving("--data", path) as server:
            check(server, images, at, data)
            client = server.client()
            assert client.ask("PATCH", at, data[len(data) // 2:], PATCH).status == 202
            assert client.ask("PUT", f"{at}?digest={sha256(data)}").status == 201
            assert client.ask("GET", f"/v2/acme/one/blobs/{sha256(data)}").body == data
            assert client.ask("HEAD", f"/v2/acme/gone/manifests/{sha256(gone)}").status == 404
            by_signal(server)


def the_metrics_show_what_a_rewriting_saves():
    """The length of the log is that of its files. The live bytes are those of the tenants' blobs and uploads, and not of deleted ones, nor
    of manifests."""
    with folder() as path:
        with serving("--data", path) as server:
            def measures():
                return [server.metric(f"registryd_{name}_bytes") for name in ("log", "live")]
            client = server.client()
            for repo in ("acme/one", "other/one"):
                fill(client, repo, 2)
                push(client, repo, random.Random(repo).randbytes(MIB))
            assert client.ask("PATCH", opened(client), bytes(1000), PATCH).status == 202
            live, kept = 2 * MIB + 1000, 4 * MIB
            assert measures() == [log_of(path).length(), live] and kept < log_of(path).length() < kept + MIB, (measures(), live)
            tenants = [server.metric(f'registryd_tenant_used_bytes{{tenant="{name}"}}') for name in ("acme", "other", "poor")]
            assert sum(tenants) == live, tenants
            litter(client)
            log, after = measures()
            assert log > kept + 2 * MIB and after == live, (log, after, live)
            rewrite(server, path)
            log, after = measures()
            assert log == log_of(path).length() and after == live and kept < log < kept + MIB + (MIB >> 1), (log, after, live)
            by_signal(server)


def a_log_of_garbage_is_rewritten_without_a_signal():
    with folder() as path:
        with serving("--data", path) as server:
            image = pushed(server.client())
            litter(server.client(), 5)
            wait_for_base(path)
            assert log_of(path).length() < 5 * MIB and "asked the store" not in server.logged()
            assert pulled(server.client(), "acme/one", "v1") == (image, MANIFEST)
            by_signal(server)


def a_signal_closes_the_last_file_first():
    """So what the last file deletes is gone after it. Nobody pushes meanwhile."""
    with folder() as path:
        with serving("--data", path) as server:
            image = pushed(server.client())
            litter(server.client(), length=MIB // 4)
            for number in range(1, 3):
                names, length = rewrite(server, path), log_of(path).length()
                assert names == [f"base.{number}", f"log.{number + 1}"] and length < MIB >> 3, (names, length)
            assert server.metric("registryd_uploads") == 0
            assert pulled(server.client(), "acme/one", "v1") == (image, MANIFEST)
            by_signal(server)
        with serving("--data", path) as server:
            assert pulled(server.client(), "acme/one", "v1") == (image, MANIFEST)
            by_signal(server)


def a_registry_without_a_folder_has_nothing_to_rewrite():
    with serving() as server:
        server.process.send_signal(signal.SIGUSR1)
        server.wait_for("there is no log to rewrite: start with --data")
        pushed(server.client())
        by_signal(server)


class Slow(Server):
    """A registry whose start takes some time."""

    def listens(self, seconds=0):
        """Does not wait."""


def a_signal_during_a_start_is_not_lost():
    """Another registry has the folder for a part of the start."""
    with folder() as path:
        with serving("--data", path) as server:
            image = pushed(server.client())
            litter(server.client())
            slow = Slow("--data", path)
            try:
                time.sleep(1.5)
                slow.process.send_signal(signal.SIGUSR1)
                time.sleep(0.5)
                by_signal(server)
                Server.listens(slow)
                slow.wait_for("asked the store to rewrite its log")
                assert pulled(slow.client(), "acme/one", "v1") == (image, MANIFEST)
                by_signal(slow)
            finally:
                slow.process.kill()
                slow.process.wait()


def main():
    play("rewriting", [
        everything_is_there_after_a_signal, the_metrics_show_what_a_rewriting_saves, a_log_of_garbage_is_rewritten_without_a_signal,
        a_signal_closes_the_last_file_first, a_registry_without_a_folder_has_nothing_to_rewrite,
        a_signal_during_a_start_is_not_lost])


if __name__ == "__main__":
    main()
