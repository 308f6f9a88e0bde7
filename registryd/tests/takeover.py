#!/usr/bin/env python3
"""Tests a standby: the same registry on two machines, over one folder that GlusterFS replicates (docs/MACHINES.md). The second one waits for
the folder, and takes over when the first one is killed, or cut off from the network, while clients push. Nothing that was acknowledged is lost.

    takeover.py [--rounds N] [--table] [KIND..]

Each kind of failure (`kill`, `cut`) is tried N times. --table prints the times. It ends with status 3 if machines or GlusterFS
cannot be made here."""
import argparse, contextlib, re, statistics, subprocess, sys, tempfile, threading, time

from cluster import as_machine_0, cluster
from documented import blocks
from mounts import CANNOT
from playing import until
from pushing import Raw, Skopeo
from server import BLOBD, REGISTRYD, Client

PORT = 5600
TENANTS = ("acme=1000000000,65536", "other=1000000000,65536")
DOCUMENT = "docs/MACHINES.md"
# The time between two starts, and the statuses after which none follows (package/debian/registryd.service).
REST, FINAL = 1, (0, 2, 6, 8, 10)
FRONTEND = """
defaults
    mode http
    timeout connect 2s
    timeout client 1m
    timeout server 1m
frontend registry
    bind {address}
    default_backend one
"""


def volume_options():
    """Returns the options that the document gives to the volume."""
    found = re.findall(r"^gluster volume set registry (\S+) (\S+)$", blocks(DOCUMENT, "A standby")[0], re.MULTILINE)
    assert ("client.strict-locks", "on") in found, found
    return found


class Unit(threading.Thread):
    """A registry on a machine that is started again as the service of the package is."""

    def __init__(self, machine, log):
        super().__init__(daemon=True)
        self.machine, self.log, self.is_ended, self.statuses = machine, open(log, "a+b"), threading.Event(), []
        self.address = f"{machine.address}:{PORT}"
        self.start()

    def run(self):
        words = [REGISTRYD, "--blobd", BLOBD, "--data", "/mnt/blobs/folder", "--let-anybody-in", "--listen", self.address, *TENANTS]
        while not self.is_ended.is_set():
            status = subprocess.run(self.machine.words(*words), stderr=self.log).returncode
            self.statuses.append(status)
            if status in FINAL or self.is_ended.wait(REST):
                return

    def is_ready(self):
        with contextlib.suppress(OSError):
            return Client(self.address).ask("GET", "/readyz").status == 200
        return False

    def tail(self):
        """Returns the statuses with which it ended, and what it logged last."""
        self.log.seek(0)
        return f"{self.address}: {self.statuses[-20:]}: " + self.log.read()[-2500:].decode(errors="replace")

    def end(self):
        self.is_ended.set()
        self.machine.kill("registryd")
        self.join(60)
        self.log.close()


@contextlib.contextmanager
def balancer(folder, one, two):
    """Sends clients to the first registry, and to the second one if that is not ready. Gives its address."""
    address = f"127.0.0.1:{PORT}"
    (backend,) = blocks(DOCUMENT, "A standby", "haproxy")
    for old, new in (("10.0.0.1:5000", one), ("10.0.0.2:5000", two)):
        assert backend.count(old) == 1, backend
        backend = backend.replace(old, new)
    with open(f"{folder}/haproxy.cfg", "w") as file:
        file.write(FRONTEND.format(address=address) + backend)
    process = subprocess.Popen(["haproxy", "-db", "-q", "-f", f"{folder}/haproxy.cfg"])
    try:
        yield address
    finally:
        process.terminate()
        process.wait()


def fails(kind, machine):
    """Lets the first registry, or the network of its machine, fail."""
    if kind == "kill":
        machine.kill("registryd")
    else:
        machine.is_cut(True)


def round_of(kind, machines, folder, number):
    """Lets the first registry fail while clients push. Returns the seconds until the second one is ready, and until all clients have pushed again,
    with the number of images."""
    units = [Unit(machines[0], f"{folder}/one.log")]
    try:
        assert until(units[0].is_ready, 60), "the first registry does not start"
        units.append(Unit(machines[1], f"{folder}/two.log"))
        assert until(lambda: 7 in units[1].statuses, 60), "the second registry does not wait for the folder"
        with balancer(folder, *(unit.address for unit in units)) as address:
            pushers = [Raw(address, f"acme/{kind}{number}"), Raw(address, f"other/{kind}{number}"), Skopeo(address, f"acme/skopeo-{kind}{number}")]
            for pusher in pushers:
                pusher.wait_for(4)
            begun = time.monotonic()
            units[0].is_ended.set()
            fails(kind, machines[0])
            assert until(units[1].is_ready, 150), "the second registry does not take over"
            ready = time.monotonic() - begun
            for pusher in pushers:
                pusher.wait_for(2, 150)
            again = time.monotonic() - begun
            pushed = [pusher.stop() for pusher in pushers]
            for pusher, images in zip(pushers, pushed):
                pusher.check(Client(units[1].address), images)
        return ready, again, sum(map(len, pushed))
    except AssertionError as error:
        raise AssertionError("\n".join([str(error), *(unit.tail() for unit in units)])) from error
    finally:
        for unit in units:
            unit.end()


def made(stack, folder):
    """Makes the machines. Ends with status 3 if they cannot be made here."""
    try:
        return stack.enter_context(cluster(folder, volume_options()))
    except (AssertionError, OSError, subprocess.CalledProcessError) as error:
        print("takeover: the machines cannot be made:", error, getattr(error, "stderr", None) or "")
        sys.exit(CANNOT)


def main():
    parser = argparse.ArgumentParser()
    parser.add_argument("--rounds", type=int, default=1)
    parser.add_argument("--table", action="store_true")
    parser.add_argument("kinds", nargs="*", default=["kill", "cut"])
    options = parser.parse_args()
    for kind in options.kinds:
        rows = []
        for number in range(options.rounds):
            with tempfile.TemporaryDirectory() as folder, contextlib.ExitStack() as stack:
                machines = made(stack, folder)
                rows.append(round_of(kind, machines, folder, number))
                if options.table:
                    print("%s: ready after %.1f s, pushes after %.1f s, %d images" % (kind, *rows[-1]), flush=True)
        ready, again, images = zip(*rows)
        print(f"takeover: {kind}: {len(rows)} of {len(rows)} rounds, {sum(images)} images, none is lost;"
              f" ready after {statistics.median(ready):.1f} s (median)", flush=True)


as_machine_0()
main()
