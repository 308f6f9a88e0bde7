#!/usr/bin/env python3
"""Tests what a registry acknowledges after writes to its disk have failed and work again. The system keeps the pages that it could not write
and takes them for written. A start that read them would acknowledge what is lost when the cache is dropped.

The disk is a file system on a loop device whose file lies on another one that gets full. It needs root and runs in mounts of its own. It ends
with status 3 if it cannot make such a disk."""
import contextlib, os, re, subprocess, sys, tempfile

from mounts import CANNOT, in_own_mounts, run
from playing import play, until
from restarts import by_kill_of_both, pulled, pushed
from server import MANIFEST, serving

TOOLS = ("losetup", "mkfs.ext4", "fsfreeze", "dumpe2fs", "fallocate")
BLOCK = 4096


class Disk:
    """A mounted file system whose free blocks have no room on the file system below."""

    def __init__(self, top):
        self.below, self.at, self.device = f"{top}/below", f"{top}/disk", None
        self.image, self.ballast = f"{self.below}/image", f"{self.below}/ballast"
        for path in (self.below, self.at):
            os.makedirs(path)
        run("truncate", "-s", "110M", f"{top}/outer")
        run("mkfs.ext4", "-q", "-F", "-m", "0", "-b", str(BLOCK), "-J", "size=4", f"{top}/outer")
        run("mount", "-o", "loop", f"{top}/outer", self.below)
        with open(self.image, "wb") as file:
            file.write(bytes(60 << 20))
        run("mkfs.ext4", "-q", "-F", "-m", "0", "-b", str(BLOCK), "-J", "size=8", "-O", "^metadata_csum", "-E",
            "lazy_itable_init=0,lazy_journal_init=0,nodiscard", self.image)
        run("sync", "-f", self.below)
        self.device = run("losetup", "-f", "--show", "--direct-io=on", self.image).strip()
        self.mount()

    def mount(self):
        run("mount", "-o", "errors=continue,nodiscard", self.device, self.at)

    def gets_full(self, room):
        """Lets writes to new blocks fail after this number of bytes."""
        run("sync", "-f", self.at)
        run("fsfreeze", "-f", self.at)
        try:
            run("sync", "-f", self.below)
            for group in re.findall(r"^ +Free blocks: (\d.*)$", run("dumpe2fs", self.image), re.M):
                for part in group.split(", "):
                    first, last = (int(number) for number in (part.split("-") * 2)[:2])
                    if last - first > 4:
                        run("fallocate", "-p", "-o", str(first * BLOCK), "-l", str((last - first + 1) * BLOCK), self.image)
        finally:
            run("fsfreeze", "-u", self.at)
        run("sync", "-f", self.below)
        with contextlib.suppress(OSError), open(self.ballast, "ab", buffering=0) as file:
            while file.write(b"x" * 65536):
                pass
        run("sync", "-f", self.below)
        os.truncate(self.ballast, max(0, os.path.getsize(self.ballast) - room))
        run("sync", "-f", self.below)

    def has_room(self):
        os.remove(self.ballast)

    def loses_cache(self):
        # A killed store is alive for a moment, and has files open.
        assert until(lambda: subprocess.run(["umount", self.at], stderr=subprocess.DEVNULL).returncode == 0)
        self.mount()

    def ends(self):
        for path in (self.at, self.below):
            subprocess.run(["umount", "-l", path], stderr=subprocess.DEVNULL)
            if path == self.at and self.device:
                subprocess.run(["losetup", "-d", self.device], stderr=subprocess.DEVNULL)


def push_until_it_fails(server):
    """Pushes tags until the registry ends, and returns those that were acknowledged, with their manifests."""
    done = {}
    with contextlib.suppress(OSError, AssertionError):
        for number in range(400):
            done[f"before{number}"] = pushed(server.client(), tag=f"before{number}", layer=b"%d" % number)
    assert server.process.wait(timeout=30) == 9, server.logged()[-1000:]
    return done


def what_is_acknowledged_after_a_failure_is_on_the_disk(room):
    with tempfile.TemporaryDirectory() as top:
        disk = Disk(top)
        try:
            path = f"{disk.at}/registry"
            with serving("--data", path, "--min-free", "0") as server:
                known = {"first": pushed(server.client(), tag="first")}
                disk.gets_full(room)
                known |= push_until_it_fails(server)
            disk.has_room()
            with serving("--data", path, "--min-free", "0") as server:
                for number in range(10):
                    known[f"after{number}"] = pushed(server.client(), tag=f"after{number}", layer=b"after %d" % number)
                by_kill_of_both(server)
            disk.loses_cache()
            with serving("--data", path, "--min-free", "0") as server:
                lost = [tag for tag, image in known.items() if pulled(server.client(), "acme/one", tag) != (image, MANIFEST)]
                assert not lost, f"{len(lost)} of {len(known)} tags are lost: {lost[:20]}"
                server.end()
        finally:
            disk.ends()


def main():
    in_own_mounts(TOOLS)
    try:
        with tempfile.TemporaryDirectory() as top:
            Disk(top).ends()
    except (subprocess.CalledProcessError, OSError):
        sys.exit(CANNOT)
    play("failing_disk", [(what_is_acknowledged_after_a_failure_is_on_the_disk, room) for room in (120_000, 160_000)])


if __name__ == "__main__":
    main()
