#!/usr/bin/env python3
"""Tests what a registry has acknowledged after the file system of its folder lost everything that was not on the disk, as by a loss of power, what
a registry says while its disk does not answer, and what a start says of kinds of file systems.

The file system is on a loop device. It is shut down while clients push, without writing anything back, as ext4 and XFS can do, and mounted again. The
tests need root and run in mounts of their own. They end with status 3 if such a file system cannot be made."""
import contextlib, fcntl, http.client, itertools, os, random, struct, subprocess, sys, tempfile, threading, time

from mounts import CANNOT, in_own_mounts, run
from playing import play, until
from restarts import pulled, pushed
from server import BLOBD, MANIFEST, REGISTRYD, serving

TOOLS = ("fsfreeze", "mkfs.ext4", "mkfs.xfs", "rclone", "fusermount3")
# A file system is shut down by this call (linux/fs.h has FS_IOC_SHUTDOWN as XFS_IOC_GOINGDOWN), without its log.
SHUTDOWN, NO_LOG_FLUSH = 0x8004587D, struct.pack("I", 2)
PUSHERS, ROUNDS = 4, 3


class Disk:
    """A mounted file system of a kind."""

    def __init__(self, top, kind):
        self.image, self.at = f"{top}/image", f"{top}/disk"
        os.makedirs(self.at)
        run("truncate", "-s", "400M", self.image)
        run(f"mkfs.{kind}", "-q", self.image)
        self.mount()

    def mount(self):
        run("mount", "-o", "loop", self.image, self.at)

    def loses_power(self):
        folder = os.open(self.at, os.O_RDONLY)
        try:
            fcntl.ioctl(folder, SHUTDOWN, NO_LOG_FLUSH)
        finally:
            os.close(folder)

    def unmount(self):
        # A killed store is alive for a moment, and has files open.
        assert until(lambda: subprocess.run(["umount", self.at], stderr=subprocess.DEVNULL).returncode == 0)

    def ends(self):
        subprocess.run(["umount", "-l", self.at], stderr=subprocess.DEVNULL)


class Pusher(threading.Thread):
    """Pushes tags until a push fails."""

    def __init__(self, server, name):
        super().__init__(daemon=True)
        # The manifests whose push was acknowledged, by their tags.
        self.client, self.prefix, self.done = server.client(), name, {}
        self.start()

    def run(self):
        with contextlib.suppress(OSError, http.client.HTTPException, AssertionError):
            for number in itertools.count():
                tag = f"{self.prefix}-{number}"
                layer = random.Random(tag).randbytes(random.Random(tag).randrange(200_000))
                self.done[tag] = pushed(self.client, tag=tag, layer=layer)


def pushed_until_power_is_lost(server, disk, name):
    """Lets clients push for a second, and returns what was acknowledged to them before the disk lost its power."""
    pushers = [Pusher(server, f"{name}-{number}") for number in range(PUSHERS)]
    assert until(lambda: all(len(pusher.done) > 2 for pusher in pushers)), "no push succeeds"
    time.sleep(1)
    # Linux lets a sync succeed that is under way while ext4 is shut down, though nothing of it is on the disk: a program that only appends and syncs
    # loses its last write so too. A loss of power sends no reply, so those that arrive from now on do not count.
    acknowledged = [dict(pusher.done) for pusher in pushers]
    disk.loses_power()
    for pusher in pushers:
        pusher.join(60)
        assert not pusher.is_alive(), "a push does not end"
    assert server.process.wait(timeout=60) == 9, server.logged()[-1000:]
    return {tag: manifest for done in acknowledged for tag, manifest in done.items()}


def lost_by(disk, *words):
    """Plays rounds of pushes and losses of power. Returns the acknowledged tags that are lost, and all of them."""
    known = {}
    for number in range(ROUNDS):
        with serving("--data", f"{disk.at}/registry", "--min-free", "0", "--reserve", "0", *words) as server:
            client = server.client()
            lost = [tag for tag, manifest in known.items() if pulled(client, "acme/one", tag) != (manifest, MANIFEST)]
            if lost:
                return lost, known
            known |= pushed_until_power_is_lost(server, disk, f"round{number}")
        disk.unmount()
        disk.mount()
    with serving("--data", f"{disk.at}/registry", "--min-free", "0", "--reserve", "0", *words) as server:
        client = server.client()
        lost = [tag for tag, manifest in known.items() if pulled(client, "acme/one", tag) != (manifest, MANIFEST)]
        server.end()
    return lost, known


@contextlib.contextmanager
def disk_of(kind):
    with tempfile.TemporaryDirectory() as top:
        disk = Disk(top, kind)
        try:
            yield disk
        finally:
            disk.ends()


def what_is_acknowledged_survives(kind, *words):
    with disk_of(kind) as disk:
        lost, known = lost_by(disk, *words)
        assert not lost, f"{len(lost)} of {len(known)} tags are lost: {lost[:20]}"


def without_syncs_something_is_lost(kind):
    """Shows that a loss would be seen. A start may refuse what is left."""
    with disk_of(kind) as disk:
        try:
            lost, _ = lost_by(disk, "--sync", "never")
        except AssertionError as error:
            lost = "damaged" in str(error)
        assert lost, "nothing is lost without syncs"


def the_kind_is_named():
    with disk_of("xfs") as disk, serving("--data", f"{disk.at}/registry") as server:
        assert "kind=xfs" in server.logged(), server.logged()
        server.end()
    with tempfile.TemporaryDirectory(dir="/dev/shm") as folder, serving("--data", folder) as server:
        assert "the folder is in memory: all is lost when the machine ends kind=tmpfs" in server.logged(), server.logged()
        server.end()


def statuses(server):
    return [server.client().ask("GET", path).status for path in ("/livez", "/healthz", "/readyz")]


def a_disk_that_does_not_answer_is_seen():
    """What is in memory is read meanwhile."""
    with disk_of("ext4") as disk, serving("--data", f"{disk.at}/registry") as server:
        image = pushed(server.client())
        assert statuses(server) == [200, 200, 200], statuses(server)
        run("fsfreeze", "-f", disk.at)
        try:
            assert until(lambda: statuses(server) == [200, 503, 503]), statuses(server)
            assert pulled(server.client(), "acme/one", "v1") == (image, MANIFEST)
        finally:
            run("fsfreeze", "-u", disk.at)
        assert until(lambda: statuses(server) == [200, 200, 200]), statuses(server)
        server.end()


def a_kind_that_broke_a_promise_is_refused():
    with tempfile.TemporaryDirectory() as top:
        source, at = f"{top}/source", f"{top}/mount"
        for path in (source, at):
            os.makedirs(path)
        run("rclone", "--config", "", "mount", source, at, "--vfs-cache-mode", "writes", "--daemon")
        try:
            words = ("--data", f"{at}/registry")
            ended = subprocess.run([REGISTRYD, "--listen", "127.0.0.1:0", "--blobd", BLOBD, *words, "acme=1000"], stderr=subprocess.PIPE, text=True)
            assert ended.returncode == 6 and "fuse.rclone" in ended.stderr and "--any-file-system" in ended.stderr, ended
            with serving(*words, "--any-file-system") as server:
                assert "was seen to lose what was acknowledged kind=fuse.rclone" in server.logged(), server.logged()
                server.end()
        finally:
            subprocess.run(["umount", "-l", at])


def main():
    in_own_mounts(TOOLS)
    try:
        for kind in ("ext4", "xfs"):
            with disk_of(kind) as disk:
                disk.loses_power()
    except (subprocess.CalledProcessError, OSError):
        sys.exit(CANNOT)
    play("file_systems", [
        *((what_is_acknowledged_survives, kind, "--sync", policy) for kind in ("ext4", "xfs") for policy in ("closes", "each")),
        (without_syncs_something_is_lost, "ext4"), a_disk_that_does_not_answer_is_seen, the_kind_is_named, a_kind_that_broke_a_promise_is_refused])


if __name__ == "__main__":
    main()
