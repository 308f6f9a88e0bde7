#!/usr/bin/env python3
"""Tests a registry whose disk is full: it reads, deletes as far as there is room, refuses the rest with 507, starts, and goes on by itself
when there is room again. It ends with status 3 if it may not mount a disk."""
import contextlib, glob, os, random, shutil, signal, sqlite3, subprocess, sys, tempfile, threading, time

import kept_folders, robots
from crash.paths import log_of
from limits import CHEAP, basic, stopped, users
from playing import Asking, play, until
from restarts import PATCH, by_kill_of_both, by_signal, opened, pulled, push, pushed, tags_of
from server import MANIFEST, index_of, push_index, serving, sha256
from statuses import check, ended
from tag_rules import command
from views import status_of

MIB = 1 << 20
CANNOT = 3

# A disk, what stays free of content on it, and the reserve, in MiB.
DISK, MIN_FREE, RESERVE = 48, 4, 8


class Disk:
    """A small disk, with a registry's folder and a file of another program."""

    def __init__(self, at):
        self.at, self.folder, self.other = at, f"{at}/registry", f"{at}/other"

    def words(self, min_free=MIN_FREE * MIB, reserve=RESERVE * MIB):
        return ("--data", self.folder, "--min-free", str(min_free), "--reserve", str(reserve))

    def free(self):
        room = os.statvfs(self.at)
        return room.f_bavail * room.f_frsize

    def fill(self, leave=0):
        """Lets another program take all that is free but this number of bytes."""
        with open(self.other, "ab", buffering=0) as file:
            for length in (MIB, 4096, 1):
                with contextlib.suppress(OSError):
                    while self.free() > leave and file.write(b"x" * min(length, max(1, self.free() - leave))):
                        pass

    def has_room(self):
        os.remove(self.other)

    def reserve(self):
        path = f"{self.folder}/reserve"
        return os.stat(path).st_blocks * 512 if os.path.exists(path) else 0


@contextlib.contextmanager
def disk(megabytes=DISK):
    with tempfile.TemporaryDirectory() as at:
        subprocess.run(["mount", "-t", "tmpfs", "-o", f"size={megabytes}m", "none", at], check=True)
        try:
            yield Disk(at)
        finally:
            subprocess.run(["umount", "-l", at], check=True)


def noise(number, length=MIB):
    return random.Random(number).randbytes(length)


def upload(client, data, repo="acme/one"):
    return client.ask("POST", f"/v2/{repo}/blobs/uploads/?digest={sha256(data)}", data, PATCH).status


def delete(client, data, repo="acme/one"):
    return client.ask("DELETE", f"/v2/{repo}/blobs/{sha256(data)}").status


class Puller(threading.Thread):
    """A client that pulls all the time, and keeps what it did not get."""

    def __init__(self, server, image, layer):
        super().__init__()
        self.server, self.image, self.layer = server, image, layer
        self.ended, self.count, self.wrong = threading.Event(), 0, []
        self.start()

    def run(self):
        client = self.server.client()
        while not self.ended.is_set():
            try:
                if pulled(client, "acme/one", "v1") != (self.image, MANIFEST):
                    self.wrong.append("manifest")
                answer = client.ask("GET", f"/v2/acme/one/blobs/{sha256(self.layer)}")
                if (answer.status, answer.body) != (200, self.layer):
                    self.wrong.append(answer.status)
            except OSError as error:
                self.wrong.append(repr(error))
            self.count += 1
            time.sleep(0.01)

    def check(self):
        self.ended.set()
        self.join(60)
        assert self.count > 0 and not self.wrong, (self.count, self.wrong[:5])


@contextlib.contextmanager
def pulling(server, image, layer):
    puller = Puller(server, image, layer)
    try:
        yield
    finally:
        puller.ended.set()
    puller.check()


def its_own_uploads_never_fill_the_disk():
    """Also without a minimum, content is refused before a write fails."""
    with disk(24) as at, serving(*at.words(min_free=0, reserve=0)) as server:
        client, layer = server.client(), noise("layer")
        image, blobs = pushed(client, layer=layer), []
        with pulling(server, image, layer):
            while (status := upload(client, noise(len(blobs), 300_000))) == 201:
                blobs.append(noise(len(blobs), 300_000))
            assert status == 507 and len(blobs) > 20, (status, len(blobs))
            for number in range(100, 120):
                assert upload(client, noise(number, 300_000)) == 507
            # The database releases the room that it held when it begins its file again. Then one more upload may fit.
            def is_refused():
                return upload(client, noise(120, 300_000)) == 507 and status_of(client)["folder"]["serves"] == "reads and deletes"
            assert until(is_refused) and status_of(client)["folder"]["free_bytes"] < 3 * MIB, status_of(client)["folder"]
            assert delete(client, blobs[0]) == 202 and tags_of(client, "acme/one") == ["v1"]
        by_signal(server)


def another_program_fills_the_disk():
    """Deletes use the reserve. When nothing is left of it, only reads are served, and everything is when there is room again."""
    with disk() as at, serving(*at.words()) as server:
        client, layer = server.client(), noise("layer")
        image, blobs = pushed(client, layer=layer), [noise(number, 50_000) for number in range(40)]
        for data in blobs:
            push(client, "acme/one", data)
        uploads = [opened(client) for _ in range(2)]
        for tag in ("v2", "v3"):
            assert client.ask("PUT", f"/v2/acme/one/manifests/{tag}", image, {"Content-Type": MANIFEST}).status == 201
        assert until(lambda: at.reserve() == RESERVE * MIB) and status_of(client)["folder"]["serves"] == "everything"
        with pulling(server, image, layer):
            at.fill()
            assert upload(client, noise("more")) == 507 and client.ask("POST", "/v2/acme/one/blobs/uploads/").status == 507
            put = client.ask("PUT", "/v2/acme/one/manifests/v4", image, {"Content-Type": MANIFEST})
            assert (put.status, put["Retry-After"]) == (507, "60")
            assert at.free() == 0 and at.reserve() == RESERVE * MIB
            gone = [delete(client, blobs.pop())]
            assert at.reserve() < RESERVE * MIB
            gone.append(client.ask("DELETE", "/v2/acme/one/manifests/v3").status)
            gone.append(client.ask("DELETE", uploads.pop()).status)
            assert gone == [202, 202, 204], gone
            at.fill()
            while (status := delete(client, blobs[-1])) == 202:
                blobs.pop()
                at.fill()
            assert status == 507 and at.reserve() == 0 and len(blobs) > 10, (status, at.reserve(), len(blobs))
            for method, path in (("DELETE", "/v2/acme/one/manifests/v2"), ("DELETE", f"/v2/acme/one/manifests/{sha256(image)}"),
                                 ("DELETE", uploads[0]), ("POST", f"/v2/acme/two/blobs/uploads/?mount={sha256(layer)}&from=acme/one")):
                answer = client.ask(method, path)
                assert (answer.status, answer["Retry-After"]) == (507, "60"), (method, path, answer.status)
            # What the program does by itself waits too.
            time.sleep(3)
            assert status_of(client)["folder"]["serves"] == "reads" and server.metric("registryd_reserve_bytes") == 0
            assert "the disk is full: all changes get 507" in server.logged()
            assert tags_of(client, "acme/one") == ["v1", "v2"] and client.ask("GET", "/healthz").status == 200
            at.has_room()
            assert client.ask("DELETE", "/v2/acme/one/manifests/v2").status == 202
            push(client, "acme/one", noise("more"))
            assert pushed(client, tag="v5", layer=layer) == image
            assert until(lambda: at.reserve() == RESERVE * MIB)
        by_signal(server)


def check_all(server, image, layer, blobs, tags=("v1",)):
    client = server.client()
    assert pulled(client, "acme/one", "v1") == (image, MANIFEST) and tags_of(client, "acme/one") == list(tags)
    for data in (layer, *blobs):
        assert client.ask("GET", f"/v2/acme/one/blobs/{sha256(data)}").body == data


def a_start_on_a_full_disk(way):
    """With a reserve it deletes, and without one it only reads, until there is room."""
    with disk() as at:
        with serving(*at.words()) as server:
            client, layer = server.client(), noise("layer")
            image, blobs = pushed(client, layer=layer), [noise(number, 50_000) for number in range(20)]
            for data in blobs:
                push(client, "acme/one", data)
            assert until(lambda: at.reserve() == RESERVE * MIB)
            at.fill()
            way(server)
        with serving(*at.words()) as server:
            check_all(server, image, layer, blobs)
            assert upload(server.client(), noise("more")) == 507
            while (status := delete(server.client(), blobs[-1])) == 202:
                blobs.pop()
                at.fill()
            assert status == 507 and at.reserve() == 0
            way(server)
        for _ in range(2):
            at.fill()
            with serving(*at.words()) as server:
                assert "the disk is full: only reads are served until there is room" in server.logged()
                check_all(server, image, layer, blobs)
                assert delete(server.client(), blobs[-1]) == upload(server.client(), noise("more")) == 507
                assert status_of(server.client())["folder"]["serves"] == "reads"
                way(server)
        with serving(*at.words()) as server:
            client = server.client()
            assert delete(client, blobs[-1]) == 507
            at.has_room()
            assert delete(client, blobs.pop()) == 202
            assert pushed(client, tag="v2", layer=layer) == image
            push(client, "acme/one", noise("more"))
            check_all(server, image, layer, blobs, ("v1", "v2"))
            way(server)
        with serving(*at.words()) as server:
            check_all(server, image, layer, [*blobs, noise("more")], ("v1", "v2"))
            by_signal(server)


def a_database_of_an_earlier_version_waits_for_room(name):
    """A start on a full disk does not complete it, and changes nothing."""
    with disk() as at, tempfile.TemporaryDirectory() as top:
        facts = kept_folders.unpack(name, top)
        shutil.copytree(f"{top}/ended", at.folder)
        before = kept_folders.content_of(at.folder)
        for _ in range(2):
            at.fill()
            check(ended(*at.words()), 8, "registry.db: it has version", "no room was left", "make room, and start again")
            after = kept_folders.content_of(at.folder)
            assert {file: after[file] for file in before} == before, [file for file in before if after[file] != before[file]]
        at.has_room()
        with serving(*at.words()) as server:
            kept_folders.check_served(server.client(), facts)
            kept_folders.check_uploads(server.client(), facts)
            by_signal(server)


def is_log_shorter(folder, length):
    """Returns whether the log is shorter than this. A rewriting may remove a file that was listed before."""
    try:
        return log_of(folder).length() < length
    except FileNotFoundError:
        return False


def a_signal_gives_back_the_room_of_what_was_deleted():
    """The last file of the log is closed first, since it has the deletes. The reserve has room for what is kept."""
    with disk(96) as at, serving(*at.words()) as server:
        client, layer = server.client(), noise("layer")
        image, texts = pushed(client, layer=layer), [push_index(client, "acme/one", index_of(number, MIB)) for number in range(30)]
        assert until(lambda: at.reserve() == RESERVE * MIB)
        with pulling(server, image, layer):
            at.fill()
            assert upload(client, noise("more")) == 507
            for text in texts[1:]:
                assert client.ask("DELETE", text).status == 202
            at.fill()
            before = log_of(at.folder).length()
            server.process.send_signal(signal.SIGUSR1)
            assert until(lambda: is_log_shorter(at.folder, before - 24 * MIB)), (before, log_of(at.folder).length(), server.logged()[-2000:])
            assert until(lambda: at.free() > 20 * MIB)
            push(client, "acme/one", noise("more"))
            check_all(server, image, layer, [noise("more")])
        by_kill_of_both(server)
        with serving(*at.words()) as server:
            check_all(server, image, layer, [noise("more")])
            assert server.client().ask("GET", texts[0]).body == index_of(0, MIB)
            by_signal(server)


def a_deleted_blob_gives_back_its_room():
    """At the next sweep, without a rewriting, since its content has a file of its own."""
    with disk() as at, serving(*at.words()) as server:
        client, layer = server.client(), noise("layer")
        image, blobs = pushed(client, layer=layer), [noise(number) for number in range(8)]
        for data in blobs:
            push(client, "acme/one", data)
        with pulling(server, image, layer):
            at.fill()
            assert upload(client, noise("more")) == 507
            for data in blobs[1:]:
                assert delete(client, data) == 202
            assert until(lambda: at.free() > 6 * MIB), at.free()
            push(client, "acme/one", noise("more"))
            check_all(server, image, layer, [blobs[0], noise("more")])
        by_signal(server)


def a_rewriting_that_has_no_room_does_not_begin():
    with disk(64) as at, serving(*at.words()) as server:
        client, layer = server.client(), noise("layer")
        image, texts = pushed(client, layer=layer), [push_index(client, "acme/one", index_of(number, MIB)) for number in range(20)]
        assert until(lambda: at.reserve() == RESERVE * MIB)
        at.fill()
        server.process.send_signal(signal.SIGUSR1)
        server.wait_for(r"was not rewritten: it needs 2\d{7} bytes on the disk, and may take \d{7}\n")
        assert not glob.glob(f"{at.folder}/owner-*/base.new") and at.free() > 0
        check_all(server, image, layer, [])
        assert {client.ask("GET", text).status for text in texts} == {200} and client.ask("DELETE", texts[0]).status == 202
        by_signal(server)


def changes_wait_while_the_disk_fills():
    """Each change is made or refused with 507, and what was acknowledged is there afterwards."""
    with disk() as at, serving(*at.words(reserve=0)) as server:
        client, layer = server.client(), noise("layer")
        image, done, wrong, ended = pushed(client, layer=layer), {}, [], threading.Event()

        def change(name):
            own, number = server.client(), 0
            while not ended.is_set():
                tag = f"{name}.{number}"
                try:
                    status = own.ask("PUT", f"/v2/acme/one/manifests/{tag}", image, {"Content-Type": MANIFEST}).status
                    if status == 201:
                        done[tag] = True
                        if number % 3 == 0:
                            status = own.ask("DELETE", f"/v2/acme/one/manifests/{tag}").status
                            done[tag] = status != 202
                    if status not in (201, 202, 507):
                        wrong.append((tag, status))
                except OSError as error:
                    wrong.append((tag, repr(error)))
                    return
                number += 1

        threads = [threading.Thread(target=change, args=(f"c{number}",)) for number in range(8)]
        with pulling(server, image, layer):
            for thread in threads:
                thread.start()
            for _ in range(5):
                time.sleep(0.5)
                at.fill()
                time.sleep(1)
                at.has_room()
            ended.set()
            for thread in threads:
                thread.join(60)
        assert not wrong and len(done) > 20, (wrong[:5], len(done))
        by_kill_of_both(server)
        with serving(*at.words(reserve=0)) as server:
            client = server.client()
            for tag, is_there in done.items():
                assert (pulled(client, "acme/one", tag) == (image, MANIFEST)) == is_there, tag
            by_signal(server)


def the_next_file_of_the_log_has_room():
    """Another program takes all room after the registry looked at the disk, and before the store begins the next file of its log."""
    with disk() as at, serving(*at.words(reserve=0)) as server:
        client, layer = server.client(), noise("layer")
        image, blobs, more = pushed(client, layer=layer), [noise(number, 50_000) for number in range(5)], 0
        for data in blobs:
            push(client, "acme/one", data)
        # A file that is longer than a MiB is closed before the next change is written.
        while log_of(at.folder).last.stat().st_size <= MIB:
            push_index(client, "acme/two", index_of(f"more {more}", 100_000))
            more += 1
        before = log_of(at.folder).last
        with stopped(server.child()):
            asked = [Asking(server, "DELETE", f"/v2/acme/one/blobs/{sha256(data)}") for data in blobs[1:]]
            asked += [Asking(server, "PUT", f"/v2/acme/one/manifests/v{number}", image, {"Content-Type": MANIFEST}) for number in (2, 3)]
            time.sleep(0.5)
            at.fill()
        statuses = [change.answered().status for change in asked]
        assert statuses[:4] == [202] * 4 and set(statuses[4:]) <= {201, 507}, statuses
        assert log_of(at.folder).last != before, "no next file"
        tags = tags_of(client, "acme/one")
        assert tags == ["v1", *(f"v{number}" for number, status in zip((2, 3), statuses[4:]) if status == 201)], (tags, statuses)
        by_kill_of_both(server)
        at.has_room()
        with serving(*at.words(reserve=0)) as server:
            check_all(server, image, layer, blobs[:1], tags)
            for data in blobs[1:]:
                assert server.client().ask("GET", f"/v2/acme/one/blobs/{sha256(data)}").status == 404
            by_signal(server)


def a_robot_is_revoked_on_a_full_disk():
    """It is refused at once, and stays so after a kill as soon as there is room. Pulls of tags wait for room too."""
    with disk() as at, users(f"acme:{CHEAP}") as file, users() as rules, tempfile.TemporaryDirectory() as top:
        control, login = f"{top}/control", basic("acme:secret")
        words = (*at.words(reserve=0), "--htpasswd", file, "--control", control, "--retention", rules)
        rows = lambda query: [row for row, in sqlite3.connect(f"file:{at.folder}/registry.db?mode=ro", uri=True).execute(query)]
        with serving(*words) as server:
            image = pushed(server.client(login), "acme/one")
            secrets = {f"robot+r{number}": robots.add(control, f"r{number}", "read:*") for number in range(6)}
            at.fill()
            for gone in secrets:
                status, _, err = command(control, "robot", "revoke", gone)
                at.fill()
                if status != 0:
                    break
            assert f"{gone} is refused from now on, but the disk is full: revoke it again" in err, err
            assert "the disk of the registry is full" in robots.fault(control, "add", "more", "--allow", "read:*", "--days", "1")
            assert [name for name, secret in secrets.items() if robots.may(server, name, secret)] == list(secrets)[list(secrets).index(gone) + 1:]
            assert robots.listed(control)[gone]["state"] == "revoked" and gone in rows("SELECT name FROM robots")
            assert pulled(server.client(login), "acme/one", "v1")[0] == image
            time.sleep(3)
            assert rows("SELECT pulled FROM tags") == [0]
            at.has_room()
            assert until(lambda: gone not in rows("SELECT name FROM robots") and rows("SELECT pulled FROM tags") > [0], 60)
            by_kill_of_both(server)
        with serving(*words) as server:
            kept = list(secrets)[list(secrets).index(gone) + 1:]
            assert kept and [name for name, secret in secrets.items() if robots.may(server, name, secret)] == list(robots.listed(control)) == kept
            by_signal(server)


def main():
    with tempfile.TemporaryDirectory() as at:
        if subprocess.run(["mount", "-t", "tmpfs", "none", at], stderr=subprocess.DEVNULL).returncode != 0:
            sys.exit(CANNOT)
        subprocess.run(["umount", at], check=True)
    tests = [
        its_own_uploads_never_fill_the_disk, another_program_fills_the_disk, (a_start_on_a_full_disk, by_signal),
        (a_start_on_a_full_disk, by_kill_of_both), a_signal_gives_back_the_room_of_what_was_deleted,
        a_deleted_blob_gives_back_its_room,
        a_rewriting_that_has_no_room_does_not_begin, changes_wait_while_the_disk_fills, the_next_file_of_the_log_has_room,
        a_robot_is_revoked_on_a_full_disk,
        *((a_database_of_an_earlier_version_waits_for_room, name) for name in kept_folders.earlier_versions())]
    play("full_disks", tests)


if __name__ == "__main__":
    main()
