#!/usr/bin/env python3
"""Measures pushes, pulls and small requests of registryd and of Debian's docker-registry, with the same clients in turn:
bench/registry.py [--runs N] [--data] [--with-unswept | --with-least] [MEASURE..]. It needs a built blobd, and the packages skopeo
and docker-registry. The collector sweeps without a pause. The output has for each measure the median wall time of the
clients in seconds, its ratio to docker-registry's, and the processor time of each server's programs. With --data registryd
keeps everything in a folder on the same disk as docker-registry, and syncs before it replies. With --with-unswept
the other server is a registryd that does not sweep. With --with-least it is a minimal program, and the measure is one blob:
with these clients, no server that hashes a blob and keeps it in memory is faster."""
import argparse, hashlib, http.client, json, os, random, shutil, signal, socket, statistics, subprocess, sys, tempfile, time
from concurrent.futures import ThreadPoolExecutor

TOP = os.path.dirname(os.path.dirname(os.path.abspath(__file__)))
sys.path.insert(0, f"{TOP}/registryd/tests")
from images import image
from server import Server, free_port, sha256

MIB = 1 << 20
TICKS = os.sysconf("SC_CLK_TCK")
CONFIG = """version: 0.1
log: {level: error, accesslog: {disabled: true}}
storage:
  filesystem: {rootdirectory: %s}
  delete: {enabled: true}
  maintenance: {uploadpurging: {enabled: false}}
http: {addr: "%s"}
"""


class Ours:
    """A new registryd over blobd."""
    rest = "0"

    def __init__(self, folder, *options):
        self.server = Server("--slots", "65536", "--sweep-ms", self.rest, *options, tenants=["acme=100000000000"])
        self.address = self.server.address
        self.pids = [self.server.process.pid, self.server.child()]

    def end(self):
        assert self.server.end() == 0


class Kept(Ours):
    """A new registryd that keeps everything in a folder."""

    def __init__(self, folder):
        super().__init__(folder, "--data", f"{folder}/registry")


class Unswept(Ours):
    """A new registryd over blobd that does not sweep during a measure."""
    rest = "1000000"


class Theirs:
    """A new docker-registry over files."""

    def __init__(self, folder):
        self.address = f"127.0.0.1:{free_port()}"
        with open(f"{folder}/config.yml", "w") as file:
            file.write(CONFIG % (f"{folder}/files", self.address))
        words = ["docker-registry", "serve", f"{folder}/config.yml"]
        self.process = subprocess.Popen(words, stdout=subprocess.DEVNULL, stderr=subprocess.DEVNULL)
        self.pids = [self.process.pid]
        for _ in range(500):
            try:
                connection = http.client.HTTPConnection(self.address, timeout=5)
                connection.request("GET", "/v2/")
                if connection.getresponse().status == 200:
                    break
            except OSError:
                time.sleep(0.01)

    def end(self):
        self.process.send_signal(signal.SIGTERM)
        self.process.wait()


class Least:
    """A process that reads a PUT's bytes into memory while OpenSSL hashes them, and sends them to a GET."""

    def __init__(self, folder):
        listener = socket.create_server(("127.0.0.1", 0))
        self.address = f"127.0.0.1:{listener.getsockname()[1]}"
        self.pids = [os.fork()]
        if self.pids == [0]:
            self.serve(listener)
        listener.close()

    def serve(self, listener):
        blob, hasher = bytearray(), ThreadPoolExecutor(1)
        while True:
            connection, _ = listener.accept()
            head = b""
            while b"\r\n\r\n" not in head:
                head += connection.recv(65536)
            head, _, first = head.partition(b"\r\n\r\n")
            length = next((int(line[15:]) for line in head.lower().split(b"\r\n") if line.startswith(b"content-length:")), 0)
            if head.startswith(b"GET"):
                connection.sendall(b"HTTP/1.1 200 OK\r\nContent-Length: %d\r\n\r\n" % len(blob))
                connection.sendall(blob)
            else:
                if head.startswith(b"PUT"):
                    blob = self.take(connection, first, length, hasher)
                connection.sendall(b"HTTP/1.1 202 Accepted\r\nLocation: /blob\r\nContent-Length: 0\r\n\r\n")
            connection.close()

    def take(self, connection, first, length, hasher):
        blob, at, hashed = bytearray(length), len(first), hashlib.sha256(first)
        blob[:at] = first
        view, parts = memoryview(blob), []
        while at < length:
            end = min(at + MIB, length)
            while at < end and (count := connection.recv_into(view[at:end])):
                parts.append(hasher.submit(hashed.update, view[at:at + count]))
                at += count
        for part in parts:
            part.result()
        return blob

    def end(self):
        os.kill(self.pids[0], signal.SIGKILL)
        os.waitpid(self.pids[0], 0)


def processor_time(pids):
    total = 0
    for pid in pids:
        with open(f"/proc/{pid}/stat") as file:
            words = file.read().rsplit(")", 1)[1].split()
        total += int(words[11]) + int(words[12])
    return total / TICKS


def peak(pids):
    total = 0
    for pid in pids:
        with open(f"/proc/{pid}/status") as file:
            total += sum(int(line.split()[1]) for line in file if line.startswith("VmHWM"))
    return total >> 10


def together(*commands):
    """Runs commands at the same time. Each has to succeed."""
    running = [subprocess.Popen(words, stdout=subprocess.DEVNULL, stderr=subprocess.PIPE) for words in commands]
    for child in running:
        error = child.communicate()[1]
        assert child.returncode == 0, error.decode()


def push(server, folder, name):
    return ["skopeo", "--insecure-policy", "copy", "-q", "--dest-tls-verify=false", f"oci:{folder}:latest", f"docker://{server.address}/acme/{name}:latest"]


def pull(server, name, folder):
    return ["skopeo", "--insecure-policy", "copy", "-q", "--src-tls-verify=false", f"docker://{server.address}/acme/{name}:latest", f"oci:{folder}:latest"]


def of_images(sizes, count=1):
    """Pushes `count` images with layers of these sizes at the same time, and pulls them."""
    def play(server, folder, timed):
        names = [f"i{n}" for n in range(count)]
        for n, name in enumerate(names):
            image(f"{folder}/{name}", sizes, 100 * n)
        timed("push", lambda: together(*(push(server, f"{folder}/{name}", name) for name in names)))
        timed("pull", lambda: together(*(pull(server, name, f"{folder}/back-{name}") for name in names)))
    return play


def of_one_put(size):
    def play(server, folder, timed):
        path, data = f"{folder}/blob", random.Random(1).randbytes(size)
        with open(path, "wb") as file:
            file.write(data)
        connection = http.client.HTTPConnection(server.address)
        connection.request("POST", "/v2/acme/a/blobs/uploads/", headers={"Content-Length": "0"})
        response = connection.getresponse()
        response.read()
        at = response.getheader("Location")
        at = at if at.startswith("http") else f"http://{server.address}{at}"
        at += ("&" if "?" in at else "?") + f"digest={sha256(data)}"
        timed("PUT", lambda: together(["curl", "-sSf", "-H", "Content-Type: application/octet-stream", "-H", "Expect:", "-X", "PUT", "-T", path, at]))
        get = ["curl", "-sSf", "-o", "/dev/null", f"http://{server.address}/v2/acme/a/blobs/{sha256(data)}"]
        # The first GET takes either server a second, of which its own programs use less than a third.
        together(get)
        timed("GET", lambda: together(get))
    return play


def of_heads(count):
    def play(server, folder, timed):
        manifest = image(f"{folder}/tiny", [1000], 1)
        with open(f"{folder}/tiny/blobs/sha256/{manifest[7:]}") as file:
            layer = json.load(file)["layers"][0]["digest"]
        together(push(server, f"{folder}/tiny", "tiny"))
        def heads():
            connection = http.client.HTTPConnection(server.address)
            for _ in range(count):
                connection.request("HEAD", f"/v2/acme/tiny/blobs/{layer}")
                response = connection.getresponse()
                assert response.status == 200
                response.read()
        timed("HEADs", heads)
    return play


MEASURES = {
    "200 MiB in 10 layers": of_images([20 * MIB] * 10),
    "100 layers of 8 KiB": of_images([8192] * 100),
    "8 clients, 25 MiB in 5 layers each": of_images([5 * MIB] * 5, 8),
    "a blob of 200 MiB": of_one_put(200 * MIB),
    "5,000 of a blob": of_heads(5000),
}


def measured(make, play):
    """Returns the wall time and the processor time of each part of a measure, and the server's peak memory."""
    parts = {}
    with tempfile.TemporaryDirectory() as folder:
        server = make(folder)

        def timed(name, part):
            # Earlier writes reach the disk here, so that no part waits for them.
            os.sync()
            before, begun = processor_time(server.pids), time.time()
            part()
            parts[name] = (time.time() - begun, processor_time(server.pids) - before)
        try:
            play(server, folder, timed)
            memory = peak(server.pids)
        finally:
            server.end()
    return parts, memory


def main():
    options = argparse.ArgumentParser(description=__doc__)
    options.add_argument("--runs", type=int, default=3)
    options.add_argument("--data", action="store_true")
    others = options.add_mutually_exclusive_group()
    others.add_argument("--with-unswept", action="store_true")
    others.add_argument("--with-least", action="store_true")
    options.add_argument("measures", nargs="*", metavar="MEASURE", help=" | ".join(MEASURES))
    options = options.parse_args()
    ours = Kept if options.data else Ours
    other = Unswept if options.with_unswept else Least if options.with_least else Theirs
    if options.with_least:
        options.measures = ["a blob of 200 MiB"]
    for program in ("skopeo", "docker-registry"):
        if not shutil.which(program):
            sys.exit(f"bench/registry.py: cannot find {program}: run apt-get install {program}")
    print(f"{'':44} {'ours':>8} {'theirs':>8} {'ratio':>6}   {'processor time':>16}   memory, MiB")
    for name in options.measures or MEASURES:
        runs = [(measured(ours, MEASURES[name]), measured(other, MEASURES[name])) for _ in range(options.runs)]
        for part in runs[0][0][0]:
            wall = [statistics.median(run[side][0][part][0] for run in runs) for side in (0, 1)]
            cpu = [statistics.median(run[side][0][part][1] for run in runs) for side in (0, 1)]
            memory = [max(run[side][1] for run in runs) for side in (0, 1)]
            print(f"{part + ': ' + name:44} {wall[0]:8.3f} {wall[1]:8.3f} {wall[0] / wall[1]:6.2f}   {cpu[0]:7.2f} {cpu[1]:7.2f}    {memory[0]:5} {memory[1]:5}", flush=True)


if __name__ == "__main__":
    main()
