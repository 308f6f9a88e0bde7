#!/usr/bin/env python3
"""A client with a local store makes an image from files, pushes it, and pulls it by tag and by digest, while the collector
sweeps. The files pulled have to equal those pushed. After the image is deleted, the store has to be empty.
clients.py podman|buildah|docker|ctr, as root. The status is 3 if the client's daemon cannot be started."""
import json, os, random, shutil, subprocess, sys, tempfile, time

from images import image, same_blobs
from server import serving

SIZES = [1000, 300_000, 5_000_000]


def run(*words):
    ended = subprocess.run(words, stdout=subprocess.PIPE, stderr=subprocess.PIPE, text=True, timeout=120)
    assert ended.returncode == 0, f"{' '.join(words)}: {ended.stderr[-500:]}"
    return ended.stdout.strip()


def files_of(folder):
    found = {}
    for name in sorted(os.listdir(folder)):
        with open(f"{folder}/{name}", "rb") as file:
            found[name] = file.read()
    return found


class Podman:
    """Pushes an image with a layer for each file."""

    def __init__(self, folder):
        self.folder = folder
        places = ["--root", f"{folder}/root", "--runroot", f"{folder}/run", "--storage-driver", "vfs"]
        self.words = ["podman", *places, "--cgroup-manager", "cgroupfs", "--events-backend", "none"]

    def push(self, at):
        image(f"{self.folder}/image", SIZES, 0)
        made = run(*self.words, "pull", "-q", f"oci:{self.folder}/image:latest")
        run(*self.words, "push", "-q", "--tls-verify=false", made, f"docker://{at}")

    def pull(self, name):
        run(*self.words, "pull", "-q", "--tls-verify=false", name)
        return files_of(run(*self.words, "image", "mount", name))

    def finds(self, address, repo):
        """Checks that podman finds the repository in the list of the registry."""
        found = run(*self.words, "search", "--tls-verify=false", "--format", "{{.Name}}", f"{address}/")
        assert found.splitlines() == [f"{address}/{repo}"], found

    def forget(self):
        run(*self.words, "rmi", "-a", "-f")

    def end(self):
        pass


class Buildah:
    """Builds an image with one layer."""

    def __init__(self, folder):
        self.folder = folder
        self.words = ["buildah", "--root", f"{folder}/root", "--runroot", f"{folder}/run", "--storage-driver", "vfs"]

    def push(self, at):
        made = run(*self.words, "from", "scratch")
        run(*self.words, "copy", "-q", made, f"{self.folder}/files", "/")
        run(*self.words, "commit", "-q", "--format", "oci", made, "made")
        run(*self.words, "push", "-q", "--tls-verify=false", "made", f"docker://{at}")

    def pull(self, name):
        made = run(*self.words, "from", "-q", "--tls-verify=false", name)
        return files_of(run(*self.words, "mount", made))

    def forget(self):
        run(*self.words, "rm", "-a")
        run(*self.words, "rmi", "-a", "-f")

    def end(self):
        pass


def start_daemon(folder, command, probe):
    """Starts a client's daemon, and returns it once the probe succeeds. If it ends before, the status is 3."""
    with open(f"{folder}/log", "w") as log:
        daemon = subprocess.Popen(command, stdout=log, stderr=log)
    for _ in range(200):
        if daemon.poll() is not None:
            break
        if subprocess.run(probe, stdout=subprocess.DEVNULL, stderr=subprocess.DEVNULL).returncode == 0:
            return daemon
        time.sleep(0.1)
    end_daemon(daemon)
    with open(f"{folder}/log") as log:
        print(f"{command[0]}:", log.read().strip().rsplit("\n", 1)[-1])
    sys.exit(3)


def end_daemon(daemon):
    daemon.terminate()
    daemon.wait()


class Docker:
    """Imports an archive as an image by its own daemon. The registry has a loopback address, so the daemon requires no TLS."""

    def __init__(self, folder):
        self.folder, socket = folder, f"unix://{folder}/socket"
        self.words = ["docker", "--config", folder, "-H", socket]
        places = ["--data-root", f"{folder}/data", "--exec-root", f"{folder}/exec", "--pidfile", f"{folder}/pid", "-H", socket]
        command = ["dockerd", "--bridge=none", "--iptables=false", "--ip6tables=false", "--storage-driver=vfs", *places]
        self.daemon = start_daemon(folder, command, [*self.words, "info"])

    def push(self, at):
        run("tar", "-C", self.folder, "-cf", f"{self.folder}/archive", "files")
        run(*self.words, "import", f"{self.folder}/archive", at)
        run(*self.words, "push", "-q", at)

    def pull(self, name):
        run(*self.words, "pull", "-q", name)
        made = run(*self.words, "create", name, "nothing")
        back = tempfile.mkdtemp(dir=self.folder)
        run(*self.words, "cp", f"{made}:/files", back)
        run(*self.words, "rm", made)
        return files_of(f"{back}/files")

    def forget(self):
        run(*self.words, "image", "prune", "-a", "-f")

    def end(self):
        end_daemon(self.daemon)


def docker_with_a_file(folder, test):
    """Returns a Docker with a file to push. If it cannot be started here, prints that the test leaves it out, and returns None."""
    if not shutil.which("dockerd") or os.geteuid() != 0:
        print(f"{test}: left out: docker")
        return None
    os.mkdir(f"{folder}/files")
    with open(f"{folder}/files/file", "w") as file:
        file.write("content")
    try:
        return Docker(folder)
    except SystemExit:
        print(f"{test}: left out: docker (it can't be started here)")
        return None


class Ctr:
    """Imports an OCI layout into a containerd of its own. The blobs in its store have to equal those of the layout."""

    def __init__(self, folder):
        self.folder, socket = folder, f"{folder}/socket"
        with open(f"{folder}/config.toml", "w") as config:
            config.write('version = 2\ndisabled_plugins = ["io.containerd.grpc.v1.cri"]\n')
        places = ["--root", f"{folder}/root", "--state", f"{folder}/state", "--address", socket]
        self.words = ["ctr", "-a", socket]
        command = ["containerd", *places, "-c", f"{folder}/config.toml"]
        self.daemon = start_daemon(folder, command, [*self.words, "version"])

    def push(self, at):
        base, tag = at.rsplit(":", 1)
        image(f"{self.folder}/image", SIZES, 0, tag)
        run("tar", "-C", f"{self.folder}/image", "-cf", f"{self.folder}/archive", ".")
        run(*self.words, "images", "import", "--no-unpack", "--base-name", base, f"{self.folder}/archive")
        run(*self.words, "images", "push", "--plain-http", at)

    def pull(self, name):
        run(*self.words, "images", "pull", "--plain-http", "--snapshotter", "native", name)
        same_blobs(f"{self.folder}/image", f"{self.folder}/root/io.containerd.content.v1.content")
        place = tempfile.mkdtemp(dir=self.folder)
        run(*self.words, "images", "mount", "--snapshotter", "native", name, place)
        try:
            return files_of(place)
        finally:
            run(*self.words, "images", "unmount", "--rm", place)

    def forget(self):
        """Removes the images and waits until their blobs are removed too."""
        run(*self.words, "images", "remove", "--sync", *run(*self.words, "images", "list", "-q").splitlines())
        left = run(*self.words, "content", "list", "-q")
        assert not left, f"containerd keeps {left}"

    def end(self):
        end_daemon(self.daemon)


def play(client, server, repo, files):
    at, http = f"{server.address}/{repo}", server.client()
    client.push(f"{at}:v1")
    client.forget()
    if isinstance(client, Podman):
        client.finds(server.address, repo)
    pushed = http.ask("GET", f"/v2/{repo}/manifests/v1")
    digest, manifest = pushed["Docker-Content-Digest"], json.loads(pushed.body)
    for reference in (":v1", f"@{digest}"):
        assert client.pull(at + reference) == files, f"{at}{reference} has other files"
        client.forget()
    blobs = {part["digest"] for part in [manifest["config"], *manifest["layers"]]}
    for path in [f"manifests/{digest}", *(f"blobs/{blob}" for blob in blobs)]:
        assert http.ask("DELETE", f"/v2/{repo}/{path}").status == 202, path
    assert not server.left(), server.left()


def main():
    name = sys.argv[1]
    files = {f"file-{n}": random.Random(n).randbytes(size) for n, size in enumerate(SIZES)}
    with tempfile.TemporaryDirectory() as folder:
        os.mkdir(f"{folder}/files")
        for file, data in files.items():
            with open(f"{folder}/files/{file}", "wb") as out:
                out.write(data)
        client = {"podman": Podman, "buildah": Buildah, "docker": Docker, "ctr": Ctr}[name](folder)
        try:
            with serving("--slots", "128", "--sweep-ms", "0") as server:
                play(client, server, f"acme/{name}", files)
                assert server.end() == 0
        finally:
            client.end()
    print(f"{name}: pushed an image, pulled it by tag and by digest, deleted it; the store is empty")


if __name__ == "__main__":
    main()
