#!/usr/bin/env python3
"""Types the commands of docs/BACKUP.md, "Backup", "Restore" and "A second machine on a copy": copies the folder of a registry that has ended,
and that of one to which clients push, and starts registries on the copies. All that was acknowledged before a copy began has
to be there, byte for byte."""
import contextlib, os, random, re, shutil, signal, tempfile, threading, time

from crash.paths import log_of
from documented import Shell, blocks
from playing import play, until
from pushing import CONTENT, Raw, Skopeo, check_listed
from rewriting import fill, litter
from server import free_port, serving, sha256

DOCUMENT = "docs/BACKUP.md"
TENANTS = ("acme=10000000000", "other=1000000000")
REPOS = ("acme/raw", "other/raw/deep")
REMOTE = {"RCLONE_CONFIG_STANDBY_TYPE": "alias"}
HEADER = 32  # the length of a file of a log that has just been made
# Copies the files of a log one after the other, slowly, and contents (`cp -au`) as always.
SLOW_CP = """cp() {
    if [[ $1 = -* ]]; then command cp "$@"; return; fi
    for file in "${@:1:$#-1}"; do sleep 0.3; command cp "$file" "${@: -1}" || return; done
}
"""


def only(found):
    assert len(found) == 1, f"{len(found)} blocks"
    return found[0]


@contextlib.contextmanager
def started(shell, block, *options):
    """Starts a registry by a block of the document."""
    registry = shell.start(block, f"127.0.0.1:{free_port()}", *options)
    try:
        yield registry.wait()
        assert registry.end() == 0
    finally:
        if registry.process.poll() is None:
            registry.process.kill()
            registry.process.wait()


@contextlib.contextmanager
def machine():
    """A folder in which blocks are typed."""
    with tempfile.TemporaryDirectory(ignore_cleanup_errors=True) as folder:
        yield folder, Shell(folder)


def open_upload(client, data):
    """Begins an upload, and returns its location."""
    at = client.ask("POST", "/v2/acme/open/blobs/uploads/")["Location"]
    assert client.ask("PATCH", at, data, CONTENT).status == 202
    return at


def resume(client, at, data):
    """Continues an upload where the registry says, and checks the blob."""
    status = client.ask("GET", at)
    assert status.status == 204, status.status
    received = int(status["Range"].split("-")[1]) + 1 if status["Range"] else 0
    assert client.ask("PATCH", at, data[received:], CONTENT).status == 202
    assert client.ask("PUT", f"{at}?digest={sha256(data)}").status == 201
    assert client.ask("GET", f"/v2/acme/open/blobs/{sha256(data)}").body == data


def uploads(client):
    text = client.ask("GET", "/metrics").body.decode()
    return only([line.split()[1] for line in text.splitlines() if line.startswith("registryd_uploads ")])


def a_folder_is_copied_at_rest():
    copying = only(blocks(DOCUMENT, "At rest"))
    with machine() as (folder, shell):
        with serving("--data", f"{folder}/srv/registry", tenants=TENANTS) as server:
            pusher = Raw(server.address, REPOS[0], pause=0)
            pusher.wait_for(10)
            pushed, data = pusher.stop(), random.Random(1).randbytes(150_000)
            at = open_upload(server.client(), data[:100_000])
            server.end()
        shell.type(copying)
        shutil.rmtree(f"{folder}/srv/registry")
        start = "registryd/run --data /backup/at-rest " + " ".join(TENANTS)
        with started(shell, start) as client:
            pusher.check(client, pushed)
            assert set(check_listed(client, REPOS[0])) == set(pushed)
            resume(client, at, data)


class Busy:
    """A registry to which clients push."""

    def __init__(self, server):
        self.server, self.before = server, []
        self.pushers = [*(Raw(server.address, repo) for repo in REPOS), Skopeo(server.address, "acme/skopeo")]
        for pusher, count in zip(self.pushers, (5, 5, 1)):
            pusher.wait_for(count)

    def copy(self, copying):
        """Runs a copy. Notes what was acknowledged before, and checks that pushes went on meanwhile."""
        for _ in range(20):
            time.sleep(1.1)  # a copy's name has the second of its start
            self.before = [dict(pusher.pushed) for pusher in self.pushers]
            copying()
            if any(len(pusher.pushed) > len(pushed) for pusher, pushed in zip(self.pushers, self.before)):
                return
        raise AssertionError("no push succeeded while the copy was made")

    def stop(self):
        for pusher in self.pushers:
            pusher.is_stopped.set()
        for pusher in self.pushers:
            pusher.stop()

    def check(self, client):
        """Checks that all is there that was acknowledged before the last copy, and that all that is listed can be pulled."""
        for pusher, pushed in zip(self.pushers, self.before):
            pusher.check(client, pushed)
            assert set(check_listed(client, pusher.repo)) >= set(pushed)


def a_folder_is_copied_while_clients_push():
    """Makes a backup while clients push and uploads are open, and restores it while the first registry goes on."""
    copying, _ = blocks(DOCUMENT, "While clients push")
    with machine() as (folder, shell):
        data = random.Random(2).randbytes(150_000)
        with serving("--data", f"{folder}/srv/registry", tenants=TENANTS) as server:
            busy = Busy(server)
            resumed, left = (open_upload(server.client(), data[:100_000]) for _ in range(2))
            busy.copy(lambda: shell.type(copying))
            with started(shell, blocks(DOCUMENT, "Restore")[1], "--session-s", "4") as client:
                resume(client, resumed, data)
                busy.check(client)
                assert until(lambda: uploads(client) == "0", 30), f"{uploads(client)} uploads are open"
                assert client.ask("GET", left).status == 404
            busy.stop()
            server.end()
        # The same copy takes the place of the service's folder.
        shell.type(blocks(DOCUMENT, "Restore")[0])
        assert os.path.exists(f"{folder}/srv/registry.before/registry.db")
        with serving("--data", f"{folder}/srv/registry", tenants=TENANTS) as server:
            busy.check(server.client())
            server.end()


def a_folder_is_copied_while_its_log_is_rewritten():
    """Asks for a rewriting when the copy of the log begins, until the copy has been interrupted by it: files that are copied are
    removed meanwhile."""
    copying, _ = blocks(DOCUMENT, "While clients push")
    with machine() as (folder, shell):
        registry = f"{folder}/srv/registry"
        with serving("--data", registry, tenants=TENANTS) as server:
            fill(server.client(), "acme/large", 8)
            busy, interrupted = Busy(server), []
            def copy():
                litter(server.client())
                before = log_of(registry).base
                asking = threading.Timer(random.uniform(0, 0.5), server.process.send_signal, [signal.SIGUSR1])
                asking.start()
                said = shell.type(SLOW_CP + copying)
                asking.join()
                assert until(lambda: log_of(registry).base != before, 60), "the log is not rewritten"
                interrupted.append(bool(re.search(r"/(log|base)\.\d+': No such file or directory", said)))
            for _ in range(10):
                busy.copy(copy)
                with started(shell, blocks(DOCUMENT, "Restore")[1]) as client:
                    busy.check(client)
                shutil.rmtree(f"{folder}/srv/restored")
                if interrupted[-1]:
                    break
            busy.stop()
            server.end()
        assert interrupted[-1], "no copy was interrupted by a rewriting"


def a_copy_may_end_anywhere():
    """Cuts the last file of a copied log at places after those that it had when the database was copied: each is a possible end of a
    copy."""
    copying, _ = blocks(DOCUMENT, "While clients push")
    restoring = blocks(DOCUMENT, "Restore")[1]
    begin = "cp /var/lib/registryd"
    measuring = f"stat --format '%n %s' /var/lib/registryd/log.* > \"$copy/begun\"\nsleep 0.2\n{begin}"
    assert copying.count(begin) == 1
    with machine() as (folder, shell):
        with serving("--data", f"{folder}/srv/registry", tenants=TENANTS) as server:
            litter(server.client())
            busy = Busy(server)
            busy.copy(lambda: shell.type(copying.replace(begin, measuring)))
            busy.stop()
            server.end()
        backup = f"{folder}/backup/{max(os.listdir(f'{folder}/backup'))}"
        copied, files = log_of(backup).last, len(log_of(backup).paths)
        with open(f"{backup}/begun") as file:
            lengths = {os.path.basename(name): int(length) for name, length in map(str.split, file)}
        begun, length = lengths.get(copied.name, HEADER), os.path.getsize(copied)
        assert files > 1 and length > begun, (files, begun, length)
        shutil.copy(copied, f"{folder}/copied")
        for seed in range(3):
            end = random.Random(seed).randrange(begun, length)
            shutil.copy(f"{folder}/copied", copied)
            os.truncate(copied, end)
            with started(shell, restoring) as client:
                busy.check(client)
            shutil.rmtree(f"{folder}/srv/restored")


def a_standby_starts_on_its_last_copy():
    """Copies a folder to a second machine twice, kills the registry, and starts the standby. Then it makes a copy that does
    not end."""
    _, copying = blocks(DOCUMENT, "While clients push")
    starting = only(blocks(DOCUMENT, "A second machine on a copy"))
    with tempfile.TemporaryDirectory(ignore_cleanup_errors=True) as folder, machine() as (second, standby):
        first = Shell(folder, environment={**REMOTE, "RCLONE_CONFIG_STANDBY_REMOTE": second})
        with serving("--data", f"{folder}/srv/registry", tenants=TENANTS) as server:
            busy = Busy(server)
            for _ in range(2):
                busy.copy(lambda: first.type(copying))
            for pusher in busy.pushers:
                pusher.wait_for(1)
            lost = server.client()
            assert lost.ask("POST", f"/v2/acme/late/blobs/uploads/?digest={sha256(b'late')}", b"late", CONTENT).status == 201
            server.process.kill()
            server.process.wait()
            busy.stop()
        copies = sorted(os.listdir(f"{second}/srv/copies"))
        assert len(copies) >= 2, copies
        # A copy that was broken off: it has no database, and is not used.
        os.mkdir(f"{second}/srv/copies/9")
        for file in log_of(f"{second}/srv/copies/{copies[-1]}").paths:
            shutil.copy(file, f"{second}/srv/copies/9")
        with started(standby, starting) as client:
            busy.check(client)
            assert client.ask("HEAD", f"/v2/acme/late/blobs/{sha256(b'late')}").status == 404
            again = Raw(f"{client.connection.host}:{client.connection.port}", REPOS[0])
            again.wait_for(3)
            again.check(client, again.stop())


def main():
    play("operating", [a_folder_is_copied_at_rest, a_folder_is_copied_while_clients_push,
                       a_folder_is_copied_while_its_log_is_rewritten, a_copy_may_end_anywhere, a_standby_starts_on_its_last_copy])


if __name__ == "__main__":
    main()
