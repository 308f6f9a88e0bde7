#!/usr/bin/env python3
"""Tests a registry whose machine is cut off from a GlusterFS volume and comes back after another one has taken over.

    cut_off.py [--strict-locks] [--paused] [ROUNDS]

Three machines are namespaces of this one, on a bridge without a way out, and have a replica each. In each round the registry of the first one is
idle while its network is cut. With --paused its programs are stopped meanwhile, as those of a paused machine, so that they do not see that. The
second one takes over and gets pushes. The network is back, and clients push to both. A registry on the third one has to have all that either has
acknowledged. A round takes about two minutes, so `check` does not run this.

It needs root, `glusterfs-server`, and `/dev/fuse`. It ends with status 3 if it cannot make such a volume."""
import contextlib, os, shutil, signal, subprocess, sys, tempfile, time

from mounts import CANNOT, run
from pushing import Raw
from server import BLOBD, REGISTRYD, Client

TOOLS = ("unshare", "nsenter", "ip", "glusterd", "gluster", "mount.glusterfs")
PORT = 5601
VOLUME = "/mnt/blobs"
# The time for a takeover: GlusterFS gives up the locks of a machine after 42 s.
TAKEOVER = 180


def children_of(process):
    """Returns the process ids of a process's children."""
    with contextlib.suppress(OSError), open(f"/proc/{process}/task/{process}/children", encoding="utf-8") as file:
        return [int(child) for child in file.read().split()]
    return []


class Machine:
    """A machine with a network of its own. All its processes end with it."""

    def __init__(self, top, number):
        self.number, self.address, self.folder = number, f"10.56.0.{number}", f"{top}/machine{number}"
        words = ["unshare", "--net", "--mount", "--uts", "--pid", "--fork", "--kill-child", "--mount-proc", "--propagation", "private"]
        self.process = subprocess.Popen([*words, "sleep", "infinity"])
        while not (found := children_of(self.process.pid)):
            time.sleep(0.05)
        self.pid = str(found[0])
        run("ip", "link", "add", f"v{number}", "type", "veth", "peer", "name", "eth0", "netns", self.pid)
        run("ip", "link", "set", f"v{number}", "master", "br0", "up")
        for name in ("glusterd", "log", "brick"):
            os.makedirs(f"{self.folder}/{name}")
        self.on("sh", "-ec", f"""hostname m{number}; ip link set lo up; ip addr add {self.address}/24 dev eth0; ip link set eth0 up
            mount -t tmpfs none /run; mkdir -p /run/gluster /var/lib/glusterd /var/log/glusterfs
            mount --bind {self.folder}/glusterd /var/lib/glusterd; mount --bind {self.folder}/log /var/log/glusterfs
            mount -t tmpfs none /mnt; mkdir {VOLUME} /mnt/brick; mount --bind {self.folder}/brick /mnt/brick; glusterd""")

    def words(self, *words):
        return ["nsenter", "-t", self.pid, "--net", "--mount", "--uts", "--pid", *words]

    def on(self, *words):
        return run(*self.words(*words))

    def cut(self):
        run("ip", "link", "set", f"v{self.number}", "down")

    def heal(self):
        run("ip", "link", "set", f"v{self.number}", "up")

    def ends(self):
        self.process.kill()
        self.process.wait()


class Registry:
    """A registry on a machine."""

    def __init__(self, machine, folder, log):
        self.machine, self.log = machine, log
        self.address = f"{machine.address}:{PORT}"
        with open(log, "wb") as file:
            words = machine.words(REGISTRYD, "--blobd", BLOBD, "--data", folder, "--let-anybody-in", "--listen", self.address)
            self.process = subprocess.Popen([*words, "acme=1000000000", "other=1000000000"], stderr=file, stdout=file)

    def is_up(self, seconds):
        end = time.time() + seconds
        while time.time() < end and self.process.poll() is None:
            with contextlib.suppress(OSError):
                client = Client(self.address)
                client.connection.timeout = 6
                if client.ask("GET", "/healthz").status == 200:
                    return True
            time.sleep(0.1)
        return False

    def tail(self):
        with open(self.log, encoding="utf-8", errors="replace") as file:
            return "\n      ".join(line[:250] for line in file.read().splitlines()[-4:])

    def signal(self, number):
        """Sends a signal to the registry and its store. `nsenter` forks, so the registry is its child."""
        for registry in children_of(self.process.pid):
            for process in (*children_of(registry), registry):
                with contextlib.suppress(ProcessLookupError):
                    os.kill(process, number)

    def kill(self):
        self.signal(signal.SIGKILL)
        self.process.kill()
        self.process.wait()


def missing(client, pusher, pushed):
    """Returns the tags that were acknowledged and are not there."""
    wrong = []
    for tag, image in pushed.items():
        try:
            pusher.check(client, {tag: image})
        except (AssertionError, OSError) as error:
            wrong.append(f"{tag}: {error}")
    return wrong


def cut_off(machines, top, number, is_paused):
    """Plays a round. Returns what is wrong."""
    first, second, third = machines
    folder = f"{VOLUME}/round{number}"
    one = Registry(first, folder, f"{top}/one.{number}")
    assert one.is_up(60), one.tail()
    before = Raw(one.address, "acme/before", pause=0.02)
    before.wait_for(10)
    acknowledged = {"before the cut": (before, before.stop())}
    time.sleep(2)
    if is_paused:
        one.signal(signal.SIGSTOP)
    first.cut()
    begun = time.time()
    while True:
        two = Registry(second, folder, f"{top}/two.{number}")
        # One that waits for the volume is not killed: it would keep its locks until the volume answers.
        if two.is_up(TAKEOVER):
            break
        two.kill()
        print("      no takeover yet:", two.tail().splitlines()[-1:], flush=True)
        assert time.time() - begun < TAKEOVER, two.tail()
    took = time.time() - begun
    after = Raw(two.address, "acme/after", pause=0.02)
    after.wait_for(10)
    first.heal()
    time.sleep(25)
    if is_paused:
        one.signal(signal.SIGCONT)
    late = None
    if one.process.poll() is None:
        late = Raw(one.address, "acme/late", pause=0.02)
        time.sleep(8)
        late.is_stopped.set()
        acknowledged["by the first one after the cut"] = late, dict(late.pushed)
    acknowledged["by the second one"] = after, after.stop()
    status = one.process.poll()
    printed = {"first": one.tail(), "second": two.tail()}
    for registry in (one, two):
        registry.kill()
    time.sleep(1)
    three = Registry(third, folder, f"{top}/three.{number}")
    wrong = []
    if three.is_up(TAKEOVER):
        client = Client(three.address)
        for what, (pusher, pushed) in acknowledged.items():
            lost = missing(client, pusher, pushed)
            wrong += [f"{what}: {len(lost)} of {len(pushed)} are missing: {lost[:2]}"] if lost else []
    else:
        wrong.append(f"no start on the third machine: {three.process.poll()}: {three.tail()}")
    three.kill()
    counts = ", ".join(f"{len(pushed)} {what}" for what, (_, pushed) in acknowledged.items())
    print(f"round {number}{', paused' if is_paused else ''}: taken over after {took:.0f} s; acknowledged: {counts}; the first one ended with {status}", flush=True)
    print(f"      {printed['first']}" if wrong or status is None else f"      {printed['first'].splitlines()[-1]}", *wrong, sep="\n      ", flush=True)
    return [f"round {number}: {text}" for text in wrong]


def volume(machines, is_strict):
    """Makes a volume of three replicas, and mounts it on each machine."""
    first = machines[0]
    for other in machines[1:]:
        first.on("gluster", "peer", "probe", other.address)
    end = time.time() + 60
    while first.on("gluster", "peer", "status").count("Peer in Cluster (Connected)") < 2:
        assert time.time() < end, first.on("gluster", "peer", "status")
        time.sleep(0.5)
    bricks = [f"{machine.address}:/mnt/brick/data" for machine in machines]
    first.on("gluster", "--mode=script", "volume", "create", "blobs", "replica", "3", *bricks, "force")
    if is_strict:
        first.on("gluster", "volume", "set", "blobs", "client.strict-locks", "on")
    first.on("gluster", "volume", "start", "blobs")
    time.sleep(3)
    for machine in machines:
        machine.on("mount", "-t", "glusterfs", f"{machine.address}:/blobs", VOLUME)
    print(first.on("gluster", "volume", "info", "blobs"), flush=True)


def main():
    words = [word for word in sys.argv[1:] if not word.startswith("--")]
    if os.getuid() != 0 or not os.path.exists("/dev/fuse") or not all(shutil.which(tool) for tool in TOOLS):
        print("cut_off.py: left out: it needs root, /dev/fuse, and " + ", ".join(TOOLS))
        sys.exit(CANNOT)
    if "--in-own-network" not in sys.argv:
        os.execvp("unshare", ["unshare", "--net", "--mount", sys.executable, os.path.abspath(sys.argv[0]), "--in-own-network", *sys.argv[1:]])
    for command in ("ip link set lo up", "ip link add br0 type bridge", "ip addr add 10.56.0.100/24 dev br0", "ip link set br0 up"):
        run(*command.split())
    wrong, machines = [], []
    with tempfile.TemporaryDirectory(ignore_cleanup_errors=True) as top:
        try:
            machines = [Machine(top, number) for number in (1, 2, 3)]
            time.sleep(2)
            volume(machines, "--strict-locks" in sys.argv)
            for number in range(int(words[0]) if words else 3):
                wrong += cut_off(machines, top, number, "--paused" in sys.argv)
        finally:
            for machine in machines:
                machine.ends()
    print("\n".join(wrong) if wrong else "cut_off.py: nothing acknowledged was lost")
    sys.exit(bool(wrong))


if __name__ == "__main__":
    main()
