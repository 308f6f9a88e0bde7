"""Three machines with a folder on GlusterFS, which keeps three copies of it: network namespaces that a bridge connects, without a way out.

The tests need root and Debian's `glusterfs-server`. A script runs as machine 0, which has no copy, and reaches the others by their addresses."""
import contextlib, os, shutil, signal, subprocess, sys, time

from mounts import CANNOT, run
from playing import until

TOOLS = ("unshare", "nsenter", "ip", "gluster", "glusterd", "glusterfs")
MACHINES = (1, 2, 3)
VOLUME = "blobs"


def address_of(machine):
    return f"10.56.0.{machine}"


def as_machine_0():
    """Starts the script again in a network and in mounts of its own. Ends it with status 3 if that is not possible here."""
    if os.getuid() != 0 or not all(shutil.which(tool) for tool in TOOLS) or not os.path.exists("/dev/fuse"):
        sys.exit(CANNOT)
    if "--as-machine-0" not in sys.argv:
        words = ["unshare", "-nm", "--propagation", "private", sys.executable, os.path.abspath(sys.argv[0]), *sys.argv[1:], "--as-machine-0"]
        os.execvp("unshare", words)
    sys.argv.remove("--as-machine-0")


class Machine:
    """A network and mounts of their own, with a server of the volume and the volume mounted at /mnt/blobs."""

    def __init__(self, number, folder):
        self.number, self.folder, self.address = number, f"{folder}/{number}", address_of(number)
        for name in ("glusterd", "log", "brick"):
            os.makedirs(f"{self.folder}/{name}")
        # Its first process. The others join its namespaces.
        self.first = subprocess.Popen(["unshare", "-nmu", "--propagation", "private", "sleep", "infinity"])
        own = os.readlink("/proc/self/ns/net")
        assert until(lambda: os.readlink(f"/proc/{self.first.pid}/ns/net") != own)
        self.link = f"link{number}"
        run("ip", "link", "add", self.link, "type", "veth", "peer", "name", "eth0", "netns", str(self.first.pid))
        run("ip", "link", "set", self.link, "master", "bridge0", "up")
        self.run("sh", "-ec", f"""
            hostname machine{number}
            ip link set lo up
            ip address add {self.address}/24 dev eth0
            ip link set eth0 up
            mount -t tmpfs none /run
            mkdir /run/gluster
            mkdir -p /var/lib/glusterd /var/log/glusterfs
            mount --bind {self.folder}/glusterd /var/lib/glusterd
            mount --bind {self.folder}/log /var/log/glusterfs
            mount -t tmpfs none /mnt
            mkdir /mnt/blobs /mnt/brick
            mount --bind {self.folder}/brick /mnt/brick
            glusterd
        """)

    def words(self, *words):
        """Returns the words of a command on this machine."""
        return ["nsenter", "-t", str(self.first.pid), "-n", "-m", "-u", *words]

    def run(self, *words):
        """Runs a command on this machine, and returns its output."""
        return run(*self.words(*words))

    def mount(self):
        self.run("mount", "-t", "glusterfs", f"{self.address}:/{VOLUME}", "/mnt/blobs")

    def is_cut(self, whether):
        """Cuts the machine off from the others, or connects it again."""
        run("ip", "link", "set", self.link, "down" if whether else "up")

    def processes(self):
        """Returns the names of the machine's processes by their numbers."""
        own, found = os.readlink(f"/proc/{self.first.pid}/ns/net"), {}
        for number in filter(str.isdigit, os.listdir("/proc")):
            with contextlib.suppress(OSError):
                if os.readlink(f"/proc/{number}/ns/net") == own:
                    with open(f"/proc/{number}/comm") as name:
                        found[int(number)] = name.read().strip()
        return found

    def kill(self, *names):
        """Kills the machine's processes with these names, or all."""
        for number, name in self.processes().items():
            if not names or name in names:
                with contextlib.suppress(ProcessLookupError):
                    os.kill(number, signal.SIGKILL)


@contextlib.contextmanager
def cluster(folder, options=()):
    """Makes the machines, and a volume with these options. Each machine has mounted it."""
    run("ip", "link", "set", "lo", "up")
    run("ip", "link", "add", "bridge0", "type", "bridge")
    run("ip", "address", "add", f"{address_of(100)}/24", "dev", "bridge0")
    run("ip", "link", "set", "bridge0", "up")
    machines = []
    try:
        for number in MACHINES:
            machines.append(Machine(number, folder))
        one = machines[0]
        for other in machines[1:]:
            assert until(lambda: joins(one, other)), "a machine does not join the others"
        assert until(lambda: one.run("gluster", "peer", "status").count("(Connected)") == len(MACHINES) - 1)
        bricks = [f"{machine.address}:/mnt/brick/{VOLUME}" for machine in machines]
        one.run("gluster", "--mode=script", "volume", "create", VOLUME, "replica", str(len(bricks)), *bricks, "force")
        for name, value in options:
            one.run("gluster", "volume", "set", VOLUME, name, value)
        one.run("gluster", "volume", "start", VOLUME)
        for machine in machines:
            machine.mount()
        yield machines
    finally:
        for machine in machines:
            machine.kill()
            machine.first.wait()
            # Its end of the link goes with the network, which may last.
            with contextlib.suppress(subprocess.CalledProcessError):
                run("ip", "link", "delete", machine.link)
        run("ip", "link", "delete", "bridge0")
        # The copies are gone with the machines' mounts a moment later.
        time.sleep(0.2)


def joins(one, other):
    """Lets a machine join the first one. Returns whether it did."""
    with contextlib.suppress(subprocess.CalledProcessError):
        one.run("gluster", "peer", "probe", other.address)
        return True
    return False
