#!/usr/bin/env python3
"""Measures a registry whose contents lie in files: the memory of registryd and of its blobd with many blobs and clients, that of a long
upload, a start with many contents, and what an upload costs whose content is in a file in place of the log.

    bench/contents.py [--program BLOBD] [--scale F] [MEASURE..]

It needs a built blobd and registryd (BLOBD and REGISTRYD name the programs). The files are in the temporary folder (TMPDIR). With
--scale 0.1 each measure has a tenth of its blobs and bytes."""
import argparse
import http.client
import json
import os
import pathlib
import random
import struct
import sys
import tempfile
import time
from concurrent.futures import ThreadPoolExecutor

TOP = pathlib.Path(__file__).resolve().parent.parent
sys.dont_write_bytecode = True
sys.path[:0] = [str(TOP / folder) for folder in ("crates/blobd/crashes", "crates/blobd", "registryd/tests", "bench")]
import durable
import server
from data_folder import FNV_BASIS, Blobd, framed, log_sum
from frames import sha256

MIB, GIB = 1 << 20, 1 << 30
CLIENTS = 16


def resident(pids):
    """Returns the resident memory of programs now and its peak since their starts, summed, in MiB."""
    lines = [line for pid in pids for line in pathlib.Path(f"/proc/{pid}/status").read_text().splitlines()]
    return [sum(int(line.split()[1]) for line in lines if line.startswith(field)) / 1024 for field in ("VmRSS:", "VmHWM:")]


class Registry:
    """A new registryd with a folder, and the memory that it and its blobd take."""

    def __init__(self, folder):
        self.server = server.Server("--data", f"{folder}/registry", "--max-blob", str(1 << 40), tenants=[f"acme={1 << 44}"])
        self.pids = [self.server.process.pid, self.server.child()]

    def resident(self):
        """Returns the resident memory of both programs now and its peak since the start, in MiB."""
        return resident(self.pids)

    def shown(self):
        now, peak = self.resident()
        return f"{now:.0f} MiB resident, at most {peak:.0f}"

    def connection(self):
        return http.client.HTTPConnection(self.server.address, timeout=600)

    def ends(self):
        if self.server.end():
            sys.exit("bench/contents.py: registryd ended with an error")


def asks(connection, method, path, body=None, wanted=201, **headers):
    """Makes a request, and returns the response, which was read."""
    connection.request(method, path, body, headers)
    response = connection.getresponse()
    size = 0
    while part := response.read(MIB):
        size += len(part)
    if response.status != wanted:
        sys.exit(f"bench/contents.py: {method} {path}: {response.status}")
    return response, size


def begins(connection, repository):
    """Opens an upload, and returns its path."""
    return asks(connection, "POST", f"/v2/acme/{repository}/blobs/uploads/", b"", 202)[0].getheader("Location")


def pushes(connection, repository, data):
    """Pushes a blob, and returns its digest."""
    place, digest = begins(connection, repository), sha256(data)
    joint = "&" if "?" in place else "?"
    asks(connection, "PUT", f"{place}{joint}digest={digest}", data, 201, **{"Content-Type": "application/octet-stream"})
    return digest


def pulls(connection, repository, digest, size):
    found = asks(connection, "GET", f"/v2/acme/{repository}/blobs/{digest}", None, 200)[1]
    if found != size:
        sys.exit(f"bench/contents.py: a blob of {size} bytes was read as {found} bytes")


def one_of(number, size):
    """Returns the bytes of a blob: those of each number are others."""
    return struct.pack("<Q", number) + SHARED[:size - 8]


SHARED = random.Random(1).randbytes(50 * MIB)


def memory(room, scale):
    """4 GiB in 4,096 blobs, and then 16 clients that push and pull 50 MiB each."""
    count, size = max(CLIENTS, int(4096 * scale)), int(50 * MIB * scale)
    registry = Registry(room)
    print(f"an empty folder: {registry.shown()}", flush=True)

    def fills(start):
        connection = registry.connection()
        for number in range(start, count, CLIENTS):
            pushes(connection, f"r{start}", one_of(number, MIB))

    def works(number):
        connection = registry.connection()
        digest = pushes(connection, f"r{number}", one_of(1 << 32 | number, size))
        pulls(connection, f"r{number}", digest, size)

    with ThreadPoolExecutor(CLIENTS) as threads:
        list(threads.map(fills, range(CLIENTS)))
        print(f"{count} blobs of a MiB by {CLIENTS} clients: {registry.shown()}", flush=True)
        begun = time.monotonic()
        list(threads.map(works, range(CLIENTS)))
        took = time.monotonic() - begun
    print(f"{CLIENTS} clients pushed and pulled {size / MIB:.0f} MiB each in {took:.1f} s: {registry.shown()}", flush=True)
    registry.ends()


def upload(room, scale):
    """An upload of 10 GiB of zeros in one request. It is abandoned."""
    count = max(1, int(10 * GIB * scale)) // MIB
    registry = Registry(room)
    connection = registry.connection()
    # Memory that any upload takes is not that of a long one.
    pushes(connection, "a", one_of(0, 16 * MIB))
    before, place = registry.resident()[1], begins(connection, "a")
    begun = time.monotonic()
    zeros = bytes(MIB)
    body = (zeros for _ in range(count))
    asks(connection, "PATCH", place, body, 202, **{"Content-Type": "application/octet-stream", "Content-Length": str(count * MIB)})
    took = time.monotonic() - begun
    print(f"an upload of {count} MiB in {took:.1f} s: {registry.shown()}, {registry.resident()[1] - before:.0f} MiB more than one of 16 MiB", flush=True)
    asks(connection, "DELETE", place, None, 204)
    registry.ends()


def start(room, scale):
    """A start with 100 GiB in 20,000 sparse files. The log is written here by docs/LOG.md, and its digests are made up: a start reads no content."""
    count, size = max(1, int(20_000 * scale)), 5 * MIB + MIB // 8
    data = room / "data"
    contents = data / "contents" / "acme"
    contents.mkdir(parents=True)
    head = struct.Struct("<IHHQQ")
    whole, rest = (struct.pack("<QQ", length, log_sum(FNV_BASIS, bytes(length))) for length in (MIB, size % MIB))
    notes = whole * (size // MIB) + rest
    payloads = []
    for number in range(1, count + 1):
        repository, digest = b"acme/r%d" % (number % 1000), sha256(str(number).encode()).encode()
        opened = head.pack(2, len(repository), 0, number, 0) + repository
        payloads.append(opened + head.pack(14, 4, len(digest), number, len(notes)) + b"acme" + digest + notes)
        os.close(os.open(contents / str(number), os.O_CREAT | os.O_WRONLY))
        os.truncate(contents / str(number), size)
    (data / "log.1").write_bytes(framed(77, [*payloads, b""]))
    (data / "longest").write_text("16384\n")
    starts(room, [PROGRAM, "--data", data, "1048576", str(1 << 40), f"acme={1 << 44}"], f"{count} contents, {count * size / GIB:.0f} GiB")


def starts(room, words, what):
    """Starts a program twice, and prints how long that takes, and what the program says meanwhile."""
    for turn in ("first", "second"):
        blobd = Blobd(words, room)
        begun = time.monotonic()
        blobd.opens()
        took = time.monotonic() - begun
        now, peak = resident([blobd.process.pid])
        status, text = blobd.ends()
        if status:
            sys.exit(f"bench/contents.py: blobd ended with {status}: {text}")
        print(f"the {turn} start with {what}: {took:.2f} s, {now:.0f} MiB resident, at most {peak:.0f}", flush=True)
        for line in text.splitlines()[:-1]:
            print(f"  {line}")


def numbers(room, scale):
    """A start with 2^20 sparse contents of a MiB in 2^16 repositories, and 100,000 manifests. The log is written here, as by `start`."""
    count, repositories, manifests = (max(1, int(most * scale)) for most in (1 << 20, 1 << 16, 100_000))
    data = room / "data"
    contents = data / "contents" / "acme"
    contents.mkdir(parents=True)
    head, note = struct.Struct("<IHHQQ"), struct.pack("<QQ", MIB, log_sum(FNV_BASIS, bytes(MIB)))

    def name(number):
        return b"acme/r%d" % (number % repositories)

    def digest(number):
        return sha256(str(number).encode())

    def blob(number):
        opened = head.pack(2, len(name(number)), 0, number, 0) + name(number)
        return opened + head.pack(14, 4, 71, number, len(note)) + b"acme" + digest(number).encode() + note

    def manifest(number):
        parts = [{"mediaType": f"application/vnd.oci.image.{kind}", "digest": digest(of), "size": MIB}
                 for kind, of in (("config.v1+json", number), ("layer.v1.tar", (number + repositories) % count))]
        body = json.dumps({"schemaVersion": 2, "config": parts[0], "layers": parts[1:], "annotations": {"number": str(number)}}).encode()
        return head.pack(8, len(name(number)), 0, 0, len(body)) + name(number) + body

    for number in range(count):
        os.close(os.open(contents / str(number + 1), os.O_CREAT | os.O_WRONLY))
        os.truncate(contents / str(number + 1), MIB)
    records = [*(blob(number) for number in range(1, count + 1)), *(manifest(number) for number in range(1, manifests + 1))]
    payloads = [b"".join(records[at:at + 512]) for at in range(0, len(records), 512)]
    (data / "log.1").write_bytes(framed(77, [*payloads, b""]))
    (data / "longest").write_text("16384\n")
    words = [PROGRAM, "--data", data, str(count + 16), str(1 << 40), f"acme={1 << 50},{count + 16},65536,65536,1024"]
    starts(room, words, f"{count} contents in {repositories} repositories, and {manifests} manifests")


def places(room, scale):
    """Uploads of contents in the log and in files, which the file `longest` of a folder decides, at two durations of a sync."""
    bench, count = durable.Bench(PROGRAM, room, scale), 320
    print("uploads a second, with the content in the log and in a file")
    for pause in (0, 5):
        for connections in (1, 16):
            for size in (4096, 16_384, 65_536):
                found = []
                for longest in (size, size - 1):
                    folder = bench.folder()
                    (folder / "longest").write_text(f"{longest}\n")
                    calls = [list(durable.blobs(f"t{number}", bench.scaled(count) // connections, size)) for number in range(connections)]
                    seconds, made, *_ = bench.plays(folder, "closes", calls, pause)
                    found.append(made / 2 / seconds)
                print(f"{size:7} bytes, {connections:2} connections, {pause} ms more a sync: {found[0]:8,.0f} {found[1]:8,.0f}", flush=True)


MEASURES = {"memory": memory, "upload": upload, "start": start, "numbers": numbers, "places": places}


def main():
    global PROGRAM
    parser = argparse.ArgumentParser(description=__doc__, formatter_class=argparse.RawDescriptionHelpFormatter)
    parser.add_argument("--program", default=server.BLOBD, metavar="BLOBD")
    parser.add_argument("--scale", type=float, default=1.0, metavar="F")
    parser.add_argument("measures", nargs="*", metavar="MEASURE", help="of " + ", ".join(MEASURES))
    options = parser.parse_args()
    PROGRAM = server.BLOBD = str(pathlib.Path(options.program).absolute())
    for name in options.measures or MEASURES:
        with tempfile.TemporaryDirectory() as room:
            MEASURES[name](pathlib.Path(room), options.scale)


if __name__ == "__main__":
    main()
