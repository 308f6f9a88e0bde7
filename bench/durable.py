#!/usr/bin/env python3
"""Measures a blobd that keeps its store in a folder: small commands and uploads with each policy and without a log, starts from long
logs, small commands while the log is rewritten, and a push of small layers next to Debian's docker-registry.

A connection is a pair of named pipes, and has a tenant of its own. bench/durable/player.c sends requests on 1, 4 and 16 of them, each
after the reply to the one before. The library of crates/blobd/crashes/shim.c counts the syncs, and can make each last longer. The folder
is in the temporary folder (TMPDIR), whose disk matters. The output has for each number of connections and policy: requests a
second, requests a sync, and the median and the 99th percentile of the time of a request in milliseconds.

The push is measured by blobd alone, and over HTTP by registryd with a folder and by docker-registry, in turn.

    bench/durable.py [--program BLOBD] [--scale F] [MEASURE..]

It needs a built blobd and cc, and registryd and docker-registry for the push (BLOBD and REGISTRYD name the programs). With --scale 0.1
each measure has a tenth of its requests."""
import argparse
import http.client
import itertools
import pathlib
import random
import shutil
import subprocess
import sys
import tempfile
import time

TOP = pathlib.Path(__file__).resolve().parent.parent
sys.dont_write_bytecode = True
sys.path[:0] = [str(TOP / "crates/blobd/crashes"), str(TOP / "crates/blobd")]
import data_folder
import registry
from data_folder import Blobd, FolderLog, Trace, base_in_the_way, log_length
from frames import ABANDON, APPEND, CLOSE, DELETE, PUT_MANIFEST, START, SWEEP, request, sha256

MIB = 1 << 20
QUOTA = 1 << 40
CONNECTIONS = (1, 4, 16)
POLICIES = (None, "never", "closes", "each")
MAX_BLOB = 1 << 30


def small(tenant, count):
    """Yields requests that start and abandon sessions."""
    for number in range(1, count // 2 + 1):
        yield request(START, f"{tenant}/one")
        yield request(ABANDON, f"{tenant}/one", number=number)


def blobs(tenant, count, size):
    """Yields requests that upload blobs in chunks of at most a MiB, the last of them with the close."""
    rng = random.Random(tenant)
    for number in range(1, count + 1):
        data = rng.randbytes(size)
        yield request(START, f"{tenant}/one")
        last = max(len(data) - 1, 0) // MIB * MIB
        for place in range(0, last, MIB):
            yield request(APPEND, f"{tenant}/one", number=number, body=data[place:place + MIB])
        yield request(CLOSE, f"{tenant}/one", sha256(data), number=number, body=data[last:])


def garbage(tenant, count, size):
    """Yields requests that upload blobs, and delete each at once except one of four."""
    rng = random.Random(tenant)
    for number in range(1, count + 1):
        data = rng.randbytes(size)
        yield request(START, f"{tenant}/one")
        yield request(CLOSE, f"{tenant}/one", sha256(data), number=number, body=data)
        if number % 4:
            yield request(DELETE, f"{tenant}/one", sha256(data))
            yield request(SWEEP)


def obstruct(folder):
    """Waits until a program has made the log of a folder. Then makes a folder in the way of a base, so that the log is not rewritten."""
    while not (folder / "log.1").exists():
        time.sleep(0.001)
    base_in_the_way(folder).mkdir()


class Bench:
    """The program that is measured, the tools, and a folder for all files."""

    def __init__(self, program, room, scale):
        self.program, self.room, self.scale = program, room, scale
        self.shim = data_folder.build_shim(room)
        self.player = room / "player"
        subprocess.run(["cc", "-O2", "-o", self.player, TOP / "bench/durable/player.c", "-lpthread"], check=True)

    def scaled(self, count):
        """Returns a number of requests, fewer if the measure is made shorter."""
        return max(2, int(count * self.scale))

    def folder(self):
        """Returns an empty folder for data."""
        folder = self.room / "data"
        shutil.rmtree(folder, ignore_errors=True)
        folder.mkdir()
        return folder

    def blobd(self, folder, policy, connections, pause=0):
        """Starts a program."""
        words = [self.program] + (["--data", folder, "--sync", policy] if policy else [])
        words += ["65536", str(MAX_BLOB), *(f"t{number}={QUOTA}" for number in range(connections))]
        trace = self.room / "trace"
        trace.unlink(missing_ok=True)
        return Blobd(words, self.room, connections, self.shim, {"CRASH_TRACE": str(trace), "CRASH_SYNC_MS": str(pause)})

    def plays(self, folder, policy, requests, pause=0, is_rewritten=True):
        """Plays the requests of each connection on a new program. Returns the seconds, the number of requests, the milliseconds (median,
        99th percentile, most), and the number of syncs."""
        words = [self.player]
        blobd = self.blobd(folder, policy, len(requests), pause)
        if not is_rewritten:
            obstruct(folder)
        for (to, back), calls in zip(blobd.pipes, requests):
            file = to.with_suffix(".requests")
            file.write_bytes(b"".join(calls))
            words += [to, back, file]
        found = subprocess.run(words, stdout=subprocess.PIPE, text=True, check=True).stdout.split()
        status, text = blobd.ends()
        if status:
            sys.exit(f"bench/durable.py: the program ended with {status}: {text}")
        seconds, count, *times = map(float, found)
        return seconds, count, times, len(Trace(self.room / "trace").syncs())

    def table(self, title, make, count, unsynced, pause=0):
        """Prints a table: `make` makes the requests of a tenant, of which there are `count` in all, and `unsynced` times as many without
        a sync."""
        print(f"\n{title}\n{'connections':12}{'policy':>8}{'a second':>12}{'a sync':>9}{'median':>10}{'p99':>10}")
        for connections in CONNECTIONS:
            for policy in POLICIES:
                each = self.scaled(count * (1 if policy in ("closes", "each") else unsynced)) // connections
                calls = [list(make(f"t{number}", each)) for number in range(connections)]
                seconds, made, (median, late, _), syncs = self.plays(self.folder(), policy, calls, pause)
                a_sync = f"{made / syncs:.1f}" if syncs else ""
                print(
                    f"{connections:<12}{policy or 'no log':>8}{made / seconds:12,.0f}{a_sync:>9}{median:10.3f}{late:10.3f}",
                    flush=True,
                )

    def restart(self, title, policy, requests):
        """Prints how long a start from the log of these requests takes. The log was not rewritten before."""
        folder = self.folder()
        self.plays(folder, policy, [requests], is_rewritten=False)
        base_in_the_way(folder).rmdir()
        size = log_length(folder)
        blobd = self.blobd(folder, "closes", 1)
        start = time.monotonic()
        blobd.opens()
        took = time.monotonic() - start
        usage = pathlib.Path(f"/proc/{blobd.process.pid}/stat").read_text().rsplit(")", 1)[1].split()
        processor = (int(usage[11]) + int(usage[12])) / registry.TICKS
        peak = blobd.peak() / 1024
        blobd.ends()
        left = log_length(folder)
        told = f", of which {left / MIB:,.1f} MiB are left" if left < size else ""
        print(
            f"{title}: {took:.2f} s, {processor:.2f} s of processor time, {peak:,.0f} MiB, from a log of {size / MIB:,.1f} MiB{told}",
            flush=True,
        )


def timed(line, requests):
    """Makes requests. Returns the milliseconds of each."""
    times = []
    for sent in requests:
        begun = time.monotonic()
        line.asks(sent)
        times.append(1000 * (time.monotonic() - begun))
    return times


def distributed(times):
    """Returns a text with the median, the 99th percentile and the most of some times."""
    times = sorted(times)
    return f"median {times[len(times) // 2]:.3f} ms, p99 {times[len(times) * 99 // 100]:.3f} ms, most {times[-1]:.3f} ms"


def rewritten(bench, count, size):
    """Prints how long a rewriting takes while the store is served, and the times of small commands before it and meanwhile. The store
    has had this number of blobs of this size, of which three of four were deleted."""
    folder = bench.folder()
    blobd = bench.blobd(folder, "closes", 2)
    line, other = blobd.opens()
    obstruct(folder)
    timed(line, garbage("t0", count, size))
    calls = small("t1", 1 << 40)
    quiet = timed(other, itertools.islice(calls, bench.scaled(2000)))
    base_in_the_way(folder).rmdir()
    length, request, meanwhile = log_length(folder), folder / "rewrite", []
    request.touch()
    while request.exists():
        time.sleep(0.001)
    start = time.monotonic()
    while not FolderLog(folder).base:
        meanwhile += timed(other, itertools.islice(calls, 20))
    took = time.monotonic() - start
    blobd.ends()
    print(
        f"{count} blobs of {size} bytes, three of four deleted: {took:.2f} s, {log_length(folder) / MIB:,.1f} of {length / MIB:,.1f} MiB are left\n"
        f"commands before: {distributed(quiet)}\ncommands meanwhile: {distributed(meanwhile)}",
        flush=True,
    )


def rewriting(bench):
    print("\nA rewriting by request, and small commands on one connection meanwhile")
    rewritten(bench, bench.scaled(1024), MIB)
    rewritten(bench, bench.scaled(262_144), 1024)


def small_commands(bench):
    bench.table("Starts and abandons", small, 4000, 10)


def small_commands_slowly(bench):
    bench.table("Starts and abandons with a sync of 5 ms more", small, 2000, 10, 5)


def small_blobs(bench):
    bench.table("Uploads of 1 KiB (start and close)", lambda tenant, count: blobs(tenant, count // 2, 1024), 4000, 5)


def large_blobs(bench):
    bench.table(
        "Uploads of 12.5 MiB in chunks of a MiB, 200 MiB in all",
        lambda tenant, count: blobs(tenant, max(1, count), 25 * MIB // 2), 16, 1,
    )


def restarts(bench):
    print("\nStarts")
    count = bench.scaled(1024)
    bench.restart(f"{count} blobs of a MiB", "never", list(blobs("t0", count, MIB)))
    bench.restart(f"{count} blobs of a MiB, three of four deleted", "never", list(garbage("t0", count, MIB)))
    count = bench.scaled(60_000)
    bench.restart(f"{count} small commands", "never", list(small("t0", count)))


def push_to_blobd(bench, layers):
    """Returns the seconds of a push of these layers and a manifest, over a connection."""
    calls = []
    for number, data in enumerate(layers, 1):
        calls += [request(START, "t0/one"), request(CLOSE, "t0/one", sha256(data), number=number, body=data)]
    calls.append(request(PUT_MANIFEST, "t0/one", body=manifest(layers)))
    return bench.plays(bench.folder(), "closes", [calls])[0]


def manifest(layers):
    """Returns a manifest whose config is the first of these contents."""
    described = [f'{{"mediaType":"application/octet-stream","digest":"{sha256(data)}","size":{len(data)}}}' for data in layers]
    kind = "application/vnd.oci.image.manifest.v1+json"
    return f'{{"schemaVersion":2,"mediaType":"{kind}","config":{described[0]},"layers":[{",".join(described[1:])}]}}'.encode()


def asks(connection, method, path, body, wanted, **headers):
    """Makes an HTTP request, and returns the location in its response."""
    connection.request(method, path, body, headers)
    response = connection.getresponse()
    response.read()
    if response.status != wanted:
        sys.exit(f"bench/durable.py: {method} {path}: {response.status}")
    return response.getheader("Location")


def push_over_http(bench, make, layers):
    """Returns the seconds of the same push over HTTP to a registry that keeps its files on the same disk."""
    server = make(str(bench.folder()))
    try:
        connection = http.client.HTTPConnection(server.address, timeout=60)
        start = time.monotonic()
        for data in layers:
            place = asks(connection, "POST", "/v2/acme/one/blobs/uploads/", b"", 202)
            sent = {"Content-Type": "application/octet-stream"}
            joint = "&" if "?" in place else "?"
            asks(connection, "PUT", f"{place}{joint}digest={sha256(data)}", data, 201, **sent)
        kind = {"Content-Type": "application/vnd.oci.image.manifest.v1+json"}
        asks(connection, "PUT", "/v2/acme/one/manifests/latest", manifest(layers), 201, **kind)
        return time.monotonic() - start
    finally:
        server.end()


def push(bench):
    rng = random.Random(1)
    layers = [rng.randbytes(8192) for _ in range(bench.scaled(100))]
    print(f"\nA push of {len(layers)} contents of 8 KiB by one client, synced before each reply")
    print(f"blobd, over named pipes: {push_to_blobd(bench, layers):.2f} s", flush=True)
    makes = [registry.Kept] + [registry.Theirs] * bool(shutil.which("docker-registry"))
    for turn in range(3):
        took = [push_over_http(bench, make, layers) for make in makes]
        print("over HTTP: registryd, docker-registry: " + ", ".join(f"{one:.2f} s" for one in took), flush=True)


MEASURES = {
    "small": small_commands,
    "slow": small_commands_slowly,
    "blobs": small_blobs,
    "large": large_blobs,
    "restarts": restarts,
    "rewriting": rewriting,
    "push": push,
}


def main():
    parser = argparse.ArgumentParser(description=__doc__, formatter_class=argparse.RawDescriptionHelpFormatter)
    parser.add_argument("--program", default=TOP / "crates/blobd/out/blobd", metavar="BLOBD")
    parser.add_argument("--scale", type=float, default=1.0, metavar="F")
    parser.add_argument("measures", nargs="*", metavar="MEASURE", help="of " + ", ".join(MEASURES))
    options = parser.parse_args()
    with tempfile.TemporaryDirectory() as room:
        bench = Bench(pathlib.Path(options.program).absolute(), pathlib.Path(room), options.scale)
        for name in options.measures or MEASURES:
            MEASURES[name](bench)


if __name__ == "__main__":
    main()
