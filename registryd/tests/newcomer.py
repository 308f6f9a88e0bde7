#!/usr/bin/env python3
"""Types the commands of README.md and docs/OPERATIONS.md as they are, except for the address: waits until the registry listens, makes an
image, pushes it, pulls it by tag and by digest, and deletes it. After a sweep the metrics show that nothing of it is left. The commands can
be typed again, leave no file, and make no request that fails. The commands of docs/EMBEDDING.md for the client in C are typed too."""
import os, shutil, subprocess, tempfile, threading, time

from documented import Shell, blocks
from images import same_blobs
from playing import play, until
from server import BLOBD, TOP, Client, free_port

ADDRESS = "127.0.0.1:5000"


class Newcomer:
    """A folder in which blocks are typed, and a registry that README's line starts."""

    def __init__(self, folder):
        self.folder, self.scratch, self.address = folder, f"{folder}/tmp", f"127.0.0.1:{free_port()}"
        os.mkdir(self.scratch)
        shutil.copy(f"{os.path.dirname(TOP)}/README.md", folder)
        _, line, self.wait, *self.readme = blocks_of("README.md", "Run a registry")
        self.operators = blocks_of("docs/OPERATIONS.md", "Pushing, pulling, deleting")
        words = line.rstrip("& ").replace("registryd/run", f"{TOP}/run").split()
        self.process = subprocess.Popen([*words, "--listen", self.address, "--blobd", BLOBD], stderr=subprocess.DEVNULL)
        # As a shell does: a process that has ended and is not waited for counts as running.
        threading.Thread(target=self.process.wait, daemon=True).start()

    def type(self, lines, pid=None):
        words = {ADDRESS: self.address, "$!": str(pid or self.process.pid)}
        return Shell(self.folder, words, {"TMPDIR": self.scratch}).type("\n".join(lines))

    def used(self):
        return self.type([self.operators[-1]]).splitlines()[-1].split()[-1]


def blocks_of(document, heading):
    """Returns the lines of the first block below a heading."""
    return blocks(document, heading)[0].splitlines()


def started(test):
    """Runs a test with a registry that listens."""
    with tempfile.TemporaryDirectory() as folder:
        newcomer = Newcomer(folder)
        try:
            assert newcomer.wait.startswith("until ")
            newcomer.type([newcomer.wait])
            test(newcomer)
            assert not os.listdir(newcomer.scratch), "a file is left"
            assert sorted(os.listdir(folder)) == ["README.md", "backup", "srv", "tmp"], "a file is left"
            newcomer.process.terminate()
            assert newcomer.process.wait(timeout=60) == 0
        finally:
            newcomer.process.kill()
            newcomer.process.wait()


def the_commands_of_readme_can_be_typed_twice(newcomer):
    for _ in range(2):
        *lines, last = newcomer.readme
        assert last == "rm -r $images"
        images = newcomer.type([*lines, "umoci gc --layout $images/app", "echo $images"]).splitlines()[-1]
        # umoci had kept the blobs of earlier steps, which are not part of the image.
        same_blobs(f"{images}/app", f"{images}/back")
        newcomer.type([f"images={images}", last])
    assert newcomer.used() != "0"


def the_commands_for_operators_leave_nothing(newcomer):
    # What was pulled is compared before it is removed.
    compared = ["diff -r $images/back/blobs $images/by-digest/blobs", "rm -r $images"]
    lines = [line for known in newcomer.operators for line in (compared if known == compared[-1] else [known])]
    assert len(lines) == len(newcomer.operators) + 1
    for _ in range(2):
        newcomer.type(lines)
        assert newcomer.used() == "0"
        def slots(name):
            text = Client(newcomer.address).ask("GET", "/metrics").body.decode()
            return [line.split()[1] for line in text.splitlines() if line.startswith(f"{name} ")]
        assert until(lambda: slots("registryd_free_slots") == slots("registryd_slots")), "its slots are not free"


def the_example_in_c_runs():
    """On the store's program of this test: to build another one takes minutes."""
    top = os.path.dirname(TOP)
    with tempfile.TemporaryDirectory() as folder, open(f"{top}/bindings/c/example.txt") as expected:
        words = {"package/unproved": f"cp {BLOBD}", "bindings/c": f"{top}/bindings/c"}
        said = Shell(folder, words, {"TMPDIR": folder}).type(blocks("docs/EMBEDDING.md", "Out of process")[0])
        # Standard error comes first: it has the totals of the store.
        assert said.endswith(f"abandoned\n{expected.read()}"), said
        assert sorted(os.listdir(folder)) == ["backup", "srv"], "a file is left"


def the_wait_ends_with_the_registry():
    """If the registry ends, nobody waits for it any more."""
    with tempfile.TemporaryDirectory() as folder:
        newcomer = Newcomer(folder)
        newcomer.process.kill()
        newcomer.process.wait()
        begun = time.time()
        newcomer.type([newcomer.wait])
        assert time.time() - begun < 100


def main():
    play("newcomer", [(started, the_commands_of_readme_can_be_typed_twice), (started, the_commands_for_operators_leave_nothing),
                      the_wait_ends_with_the_registry, the_example_in_c_runs])


if __name__ == "__main__":
    main()
