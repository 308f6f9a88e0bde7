#!/usr/bin/env python3
"""Installs the Debian package into a new root, uses the registry there, and removes it; reads the image, and uses it in the same way.
Called by package/check: installed.py PACKAGE IMAGE, as root."""
import json
import os
import re
import shlex
import shutil
import subprocess
import sys
import tempfile
import time

TOP = os.path.dirname(os.path.dirname(os.path.abspath(__file__)))
sys.path.insert(0, f"{TOP}/registryd/tests")
from images import image as make_image, same_blobs  # noqa: E402
from server import Client, free_port  # noqa: E402

# What the root has in addition to the essential packages: the dependencies of the package, which an operator's `apt install` brings.
NEEDED = ["libc6", "libcrypt1", "libgcc-s1", "libsqlite3-0", "passwd"]
SIZES = [1000, 30_000]

# The programs with which podman runs the image.
RUNTIMES = ("crun", "runc")


def run(*words, status=0, timeout=120, **options):
    done = subprocess.run(words, stdout=subprocess.PIPE, stderr=subprocess.STDOUT, text=True, timeout=timeout, **options)
    assert done.returncode == status, f"{' '.join(words)}: {done.returncode}: {done.stdout[-2000:]}"
    return done.stdout


def installed():
    """Returns the stanzas of the packages of the root, and of all that they depend on, by name."""
    with open("/var/lib/dpkg/status", encoding="utf-8") as file:
        stanzas = {re.search(r"^Package: (.*)$", text, re.M).group(1): text for text in file.read().split("\n\n") if text.strip()}
    found, names = {}, [*NEEDED, *(name for name, text in stanzas.items() if re.search("^Essential: yes$", text, re.M))]
    while names:
        name = names.pop()
        if name not in found and name in stanzas:
            found[name] = stanzas[name]
            for line in re.findall(r"^(?:Pre-)?Depends: (.*)$", stanzas[name], re.M):
                # The first of the alternatives that this machine has.
                choices = [[re.match(r"[^ :(]+", word.strip()).group() for word in choice.split("|")] for choice in line.split(",")]
                names += [next((word for word in words if word in stanzas), words[0]) for words in choices]
    return found


def make_root(root):
    """Makes a root of files of this machine's packages, with a dpkg that knows them."""
    stanzas = installed()
    for name in ("bin", "sbin", "lib", "lib64"):
        os.makedirs(f"{root}/usr/{name}")
        os.symlink(f"usr/{name}", f"{root}/{name}")
    for name in ("proc", "dev", "tmp", "etc", "var/lib/dpkg/info", "var/lib/dpkg/updates", "var/log"):
        os.makedirs(f"{root}/{name}")
    paths = {path for name in stanzas for path in run("dpkg-query", "--listfiles", name).splitlines()}
    unneeded = re.compile(r"/usr/share/(doc|man|locale|info|perl|zoneinfo|i18n)/|/usr/lib/x86_64-linux-gnu/(gconv|perl-base/unicore)/|^/var/")
    files = sorted(path for path in paths if os.path.lexists(path) and not unneeded.search(path) and
                   (os.path.islink(path) or os.path.isfile(path)))
    listed = "\0".join(path.lstrip("/") for path in files)
    tar = subprocess.run(["tar", "-C", "/", "--create", "--no-recursion", "--null", "--files-from=-"], input=listed.encode(),
                         stdout=subprocess.PIPE, check=True).stdout
    subprocess.run(["tar", "-C", root, "--extract", "--keep-directory-symlink"], input=tar, check=True)
    with open(f"{root}/var/lib/dpkg/status", "w", encoding="utf-8") as file:
        file.write("\n\n".join(stanzas.values()) + "\n")
    shutil.copytree("/usr/share/base-passwd", f"{root}/usr/share/base-passwd", dirs_exist_ok=True)
    for name in ("passwd", "group"):
        shutil.copy(f"/usr/share/base-passwd/{name}.master", f"{root}/etc/{name}")
    return len(stanzas)


def files_of(top):
    """Returns the content of each file below a folder, by its path."""
    found = {}
    for folder, _, names in os.walk(top):
        for name in names:
            with open(f"{folder}/{name}", "rb") as file:
                found[f"{folder}/{name}"] = file.read()
    return found


def serves(address):
    """Returns whether a registry serves. While it starts, its replies are 503."""
    try:
        return Client(address).ask("GET", "/v2/").status == 200
    except OSError:
        return False


class Running:
    """A registry in a root, as a user of it. It ends with this test."""

    def __init__(self, root, user, command, address):
        # Programs that are not killed with `unshare` are: it has a process namespace of its own.
        inside = 'mount -t proc proc "$0/proc" && mount --bind /dev "$0/dev" && exec chroot --userspec="$1" "$0" "${@:2}"'
        words = ["unshare", "--mount", "--pid", "--fork", "--kill-child", "bash", "-c", inside, root, user, *command]
        self.log = tempfile.TemporaryFile()
        self.process = subprocess.Popen(words, stderr=self.log, env={"PATH": "/usr/bin:/bin:/usr/sbin"})
        self.address = address
        end = time.time() + 30
        while not serves(address):
            assert self.process.poll() is None and time.time() < end, self.logged()
            time.sleep(0.05)

    def logged(self):
        self.log.seek(0)
        return self.log.read().decode()

    def end(self):
        """Ends the registry by SIGTERM, and returns its status."""
        with open(f"/proc/{self.process.pid}/task/{self.process.pid}/children") as file:
            os.kill(int(file.read().split()[0]), 15)
        return self.process.wait(timeout=30)


def use_twice(start, folder):
    """Pushes an image to a registry, which is then restarted, and pulls it."""
    make_image(f"{folder}/image", SIZES, 0)
    registry = start()
    where = f"docker://{registry.address}/acme/app:v1"
    run("skopeo", "copy", "--dest-tls-verify=false", f"oci:{folder}/image", where)
    assert registry.end() == 0, registry.logged()
    registry = start()
    run("skopeo", "copy", "--src-tls-verify=false", f"docker://{registry.address}/acme/app:v1", f"oci:{folder}/back")
    same_blobs(f"{folder}/image", f"{folder}/back")
    assert registry.end() == 0, registry.logged()
    return registry.logged()


def settings(root):
    """Returns the options and tenants of the service's settings, as systemd splits them."""
    with open(f"{root}/etc/default/registryd", encoding="utf-8") as file:
        named = dict(re.findall(r'^([A-Z]+)="(.*)"$', file.read(), re.M))
    return named["OPTIONS"].split() + named["TENANTS"].split()


def service_command(root):
    """Returns the user of the service, its command with its settings on a free port, and the address."""
    with open(f"{root}/usr/lib/systemd/system/registryd.service", encoding="utf-8") as file:
        command = shlex.split(re.search(r"^ExecStart=(.*)$", file.read(), re.M).group(1))
    assert command[-2:] == ["$OPTIONS", "$TENANTS"], command
    address = f"127.0.0.1:{free_port()}"
    words = [address if word == "127.0.0.1:5000" else word for word in settings(root)]
    return "registryd:registryd", [*command[:-2], *words], address


def check_package(package, root, folder):
    """Installs the package into a root that has what it depends on, uses the registry there, upgrades, removes and purges it."""
    dpkg = ["dpkg", f"--root={root}", "--force-not-root", "--log=/dev/null"]
    run(*dpkg, "--install", package)
    assert "Status: install ok installed" in run(*dpkg, "--status", "registryd")
    entry = run("chroot", root, "getent", "passwd", "registryd").strip()
    assert entry.endswith(":/var/lib/registryd:/usr/sbin/nologin"), entry
    home = os.stat(f"{root}/var/lib/registryd")
    assert (home.st_mode & 0o777, home.st_uid) == (0o700, int(entry.split(":")[2]))
    assert os.path.islink(f"{root}/etc/systemd/system/multi-user.target.wants/registryd.service")

    def start():
        return Running(root, *service_command(root))
    log = use_twice(start, folder)
    is_proved = os.path.exists(f"{root}/usr/share/registryd/blobd.proved")
    assert ("the store's program was proved" in log) == is_proved and ("NOT VERIFIED" in log) != is_proved, log
    # An upgrade keeps the data and changed settings.
    with open(f"{root}/etc/default/registryd", "a", encoding="utf-8") as file:
        file.write("# changed\n")
    run(*dpkg, "--install", package)
    assert start().end() == 0
    data = files_of(f"{root}/var/lib/registryd")
    run(*dpkg, "--remove", "registryd")
    assert not os.path.exists(f"{root}/usr/bin/registryd") and os.path.exists(f"{root}/etc/default/registryd")
    said = run(*dpkg, "--purge", "registryd")
    assert "kept the registry's data: /var/lib/registryd" in said and data == files_of(f"{root}/var/lib/registryd"), said
    assert f"{root}/var/lib/registryd/registry.db" in data
    assert not os.path.exists(f"{root}/etc/default/registryd") and not os.path.exists(f"{root}/usr/share/registryd")
    # Without data, a purge leaves nothing.
    run(*dpkg, "--install", package)
    shutil.rmtree(f"{root}/var/lib/registryd")
    os.mkdir(f"{root}/var/lib/registryd")
    run(*dpkg, "--purge", "registryd")
    assert not os.path.exists(f"{root}/var/lib/registryd")
    run("chroot", root, "getent", "passwd", "registryd", status=2)


def check_image(image, root, folder):
    config = json.loads(run("skopeo", "inspect", "--config", image))["config"]
    assert config["Entrypoint"][0] == "/usr/bin/registryd" and config["User"] != "0:0" and "/data" in config["Volumes"], config
    assert len(json.loads(run("skopeo", "inspect", image))["Layers"]) == 1
    run("umoci", "unpack", "--image", image.removeprefix("oci:"), folder + "/bundle")
    unpacked = f"{folder}/bundle/rootfs"
    os.rename(unpacked, root)
    for name in ("proc", "dev"):
        os.mkdir(f"{root}/{name}")

    def start():
        address = f"127.0.0.1:{free_port()}"
        words = [address if word == "0.0.0.0:5000" else word for word in config["Entrypoint"]]
        return Running(root, config["User"], [*words, "acme=1000000"], address)
    use_twice(start, folder)
    done = subprocess.run(["chroot", root, *config["Entrypoint"], "acme=1"], stderr=subprocess.PIPE, text=True)
    assert done.returncode == 2 and "give --htpasswd, --oidc, --token-key or --let-anybody-in" in done.stderr, done.stderr


class NoContainer(Exception):
    """Podman cannot start a container on this machine."""


class Container:
    """A registry in a container of podman, with its volume. It ends with this test."""

    def __init__(self, podman, words, address):
        self.log = tempfile.TemporaryFile()
        self.process = subprocess.Popen([*podman, "run", "--rm", "--network", "host", *words], stdout=self.log, stderr=self.log)
        self.address = address
        end = time.time() + 60
        while not serves(address):
            # Podman's own failures have these statuses (podman-run(1), "Exit Status").
            if self.process.poll() in (125, 126, 127):
                raise NoContainer(self.logged().strip().rsplit("\n", 1)[-1])
            assert self.process.poll() is None and time.time() < end, self.logged()
            time.sleep(0.1)

    def logged(self):
        self.log.seek(0)
        return self.log.read().decode()

    def end(self):
        """Ends the registry by SIGTERM, which podman passes on, and returns its status."""
        self.process.terminate()
        return self.process.wait(timeout=60)


def cgroups_of(runtime):
    """Returns the words in front of podman and its option with which a runtime has the control groups that it can use here."""
    if runtime != "crun":
        return [], []
    # crun uses no machine that has both versions of control groups: it sees the second alone, in a namespace of its own.
    alone = 'umount --recursive /sys/fs/cgroup && mount -t cgroup2 none /sys/fs/cgroup && exec "$@"'
    has_both = os.path.isdir("/sys/fs/cgroup/unified")
    return ["unshare", "--mount", "bash", "-c", alone, "bash"] if has_both else [], ["--cgroups", "disabled"]


def run_in_podman(image, runtime, folder):
    """Runs the image in containers of a runtime, one after the other with one volume. Returns why that cannot be done here, if so."""
    if not shutil.which("podman") or not shutil.which(runtime):
        return f"no podman or no {runtime}"
    places = ["--root", f"{folder}/storage", "--runroot", f"{folder}/run", "--storage-driver", "vfs"]
    prefix, cgroups = cgroups_of(runtime)
    podman = [*prefix, "podman", "--runtime", runtime, *places, "--cgroup-manager", "cgroupfs", "--events-backend", "none"]
    # Podman makes a name of the path, and a name has no capital letters.
    kind, place, version = image.split(":", 2)
    made = run(*podman, "pull", "--quiet", f"{kind}:{os.path.basename(place)}:{version}", cwd=os.path.dirname(place)).strip()
    # Podman's own limits need CAP_SYS_RESOURCE. The rest is how kubernetes.yaml restricts the container.
    limits = ["--ulimit", "nofile=4096:4096", "--ulimit", "nproc=4096:4096", "--read-only", "--cap-drop", "all",
              "--security-opt", "no-new-privileges"]

    def start():
        address = f"127.0.0.1:{free_port()}"
        command = ["--entrypoint", "/usr/bin/registryd", made, "--data", "/data", "--listen", address, "acme=1000000"]
        return Container(podman, [*cgroups, *limits, "--volume", "registry:/data", *command], address)
    try:
        use_twice(start, folder)
    except NoContainer as error:
        return str(error)
    finally:
        subprocess.run([*podman, "rm", "--all", "--force"], stdout=subprocess.DEVNULL, stderr=subprocess.DEVNULL)


def main():
    package, image = sys.argv[1:]
    begun = time.time()
    # A process of podman may still clean up.
    with tempfile.TemporaryDirectory(ignore_cleanup_errors=True) as folder:
        os.chmod(folder, 0o755)
        for name in ("package", "image", *RUNTIMES):
            os.mkdir(f"{folder}/{name}")
        count = make_root(f"{folder}/root")
        check_package(package, f"{folder}/root", f"{folder}/package")
        check_image(image, f"{folder}/rootfs", f"{folder}/image")
        whys = {runtime: run_in_podman(image, runtime, f"{folder}/{runtime}") for runtime in RUNTIMES}
    for runtime, why in whys.items():
        print(f"package: left out: a container of {runtime}: {why}" if why else f"package: the image used in containers of {runtime}")
    print(f"package: installed with {count} packages, used, removed and purged; the image used: {time.time() - begun:.0f} s")


if __name__ == "__main__":
    main()
