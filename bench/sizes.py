#!/usr/bin/env python3
"""Measures the commands of blobd and its memory as a store grows: by its blobs, its repositories, and the manifests of one repository.

One program grows from size to size. At each size the output has for each command its processor time in microseconds, by all threads of the
program, and the program's resident memory in MiB, with the bytes that each further one took. With --instructions the program runs under
callgrind, which takes fifty times as long, and the output has instructions in place of times.

    bench/sizes.py [--program BLOBD] [--most EXPONENT] [--calls N] [--instructions] [KIND..]

The kinds are blobs, repositories and manifests. --most bounds the exponents of the sizes. Each cost is that of N calls (10,000), divided.

It needs a built blobd, and valgrind for --instructions."""
import argparse
import json
import pathlib
import re
import subprocess
import sys
import tempfile

TOP = pathlib.Path(__file__).resolve().parent.parent
sys.dont_write_bytecode = True
sys.path[:0] = [str(TOP / "crates/blobd")]
from frames import (
    ABANDON, BLOB_UNKNOWN, CLOSE, DELETE, DELETE_MANIFEST, FETCH, FREE_SLOTS, GET_MANIFEST, GIVE_BACK, GREETING, LEASE, MOUNT,
    PUT_MANIFEST, READ, REMOVE_REPO, START, STAT, SWEEP, USAGE, request, sha256,
)

MIB = 1 << 20
QUOTA = 1 << 50
# The requests that are sent before their replies are read. They fit into a pipe.
TOGETHER = 64
CONFIG = "application/vnd.oci.image.config.v1+json"
MANIFEST = "application/vnd.oci.image.manifest.v1+json"


class Store:
    """A program with one connection over its standard input and output."""

    def __init__(self, program, slots, room, counts_instructions):
        self.room, self.counts_instructions, self.dumps, self.total = room, counts_instructions, 0, 0
        words = [program, str(slots), str(MIB), f"acme={QUOTA},{slots},65536,1048576,4096"]
        if counts_instructions:
            words = ["valgrind", "--tool=callgrind", f"--callgrind-out-file={room}/out", *words]
        self.process = subprocess.Popen(words, stdin=subprocess.PIPE, stdout=subprocess.PIPE, stderr=subprocess.PIPE)
        self.process.stdin.write(GREETING)
        self.process.stdin.flush()
        if self.process.stdout.read(len(GREETING)) != GREETING:
            sys.exit("bench/sizes.py: the program sends another greeting")
        self.next = 1

    def reply(self, wanted):
        head = self.process.stdout.read(32)
        status, text = int.from_bytes(head[:4], "little"), int.from_bytes(head[4:8], "little")
        if status != wanted:
            sys.exit(f"bench/sizes.py: status {status}, and not {wanted}")
        self.process.stdout.read(text + int.from_bytes(head[24:], "little"))
        return int.from_bytes(head[8:16], "little"), int.from_bytes(head[16:24], "little")

    def play(self, requests, wanted=0):
        """Sends requests, some together, and returns the last reply. Each has the wanted status."""
        last, count, sent = None, 0, bytearray()
        for one in requests:
            sent += one
            count += 1
            if count == TOGETHER:
                last, count, sent = self.played(sent, count, wanted), 0, bytearray()
        return self.played(sent, count, wanted) if count else last

    def played(self, sent, count, wanted):
        self.process.stdin.write(sent)
        self.process.stdin.flush()
        for _ in range(count):
            last = self.reply(wanted)
        return last

    def upload(self, repo, body):
        """Returns the two requests of an upload."""
        number, self.next = self.next, self.next + 1
        return [request(START, repo), request(CLOSE, repo, sha256(body), number=number, body=body)]

    def opened(self):
        """Returns the two requests that open and abandon an upload."""
        number, self.next = self.next, self.next + 1
        return [request(START, "acme/0"), request(ABANDON, "acme/0", number=number)]

    def used(self):
        """Returns the instructions, or the nanoseconds of the processor, up to now."""
        if self.counts_instructions:
            subprocess.run(["callgrind_control", "--dump", str(self.process.pid)], check=True, capture_output=True)
            self.dumps += 1
            text = pathlib.Path(f"{self.room}/out.{self.dumps}").read_text()
            self.total += int(re.search(r"^(?:summary|totals): (\d+)", text, re.MULTILINE)[1])
            return self.total
        tasks = pathlib.Path(f"/proc/{self.process.pid}/task").glob("*/schedstat")
        return sum(int(task.read_text().split()[0]) for task in tasks)

    def cost(self, requests, calls, wanted=0):
        """Returns the cost of a call: `requests` are those of `calls` calls."""
        before = self.used()
        self.play(requests, wanted)
        return (self.used() - before) / calls / (1 if self.counts_instructions else 1000)

    def memory(self):
        """Returns the resident bytes."""
        text = pathlib.Path(f"/proc/{self.process.pid}/status").read_text()
        return int(re.search(r"VmRSS:\s+(\d+) kB", text)[1]) << 10

    def end(self):
        self.process.stdin.close()
        self.process.wait()


def content(number):
    return b"blob %d" % number


def manifest(number):
    """Returns a manifest that differs by its number, of one config."""
    config = {"mediaType": CONFIG, "digest": sha256(content(0)), "size": len(content(0))}
    return json.dumps({"schemaVersion": 2, "mediaType": MANIFEST, "config": config, "layers": [], "annotations": {"n": str(number)}}).encode()


def flat(lists):
    return [one for each in lists for one in each]


class Growth:
    """A store that grows: how, and the commands that are measured."""

    def __init__(self, store):
        self.store = store

    def some(self, size, calls):
        """Returns numbers below a size, spread over it."""
        return [number * 7919 % size for number in range(calls)]


class Blobs(Growth):
    """Blobs in sixteen repositories."""

    def grow(self, old, size):
        self.store.play(one for number in range(old, size) for one in self.store.upload(f"acme/{number % 16}", content(number)))

    def costs(self, size, calls):
        store, some = self.store, self.some(size, calls)
        names = [(f"acme/{number % 16}", sha256(content(number))) for number in some]
        yield "start, abandon", store.cost(flat(store.opened() for _ in some), calls)
        yield "stat", store.cost([request(STAT, repo, digest) for repo, digest in names], calls)
        yield "stat of none", store.cost([request(STAT, repo, sha256(b"none")) for repo, _ in names], calls, BLOB_UNKNOWN)
        yield "fetch", store.cost([request(FETCH, repo, digest) for repo, digest in names], calls)
        first = store.play([request(LEASE, *names[0])])[1]
        store.play([request(GIVE_BACK, number=first)])
        lease = lambda number, repo, digest: [
            request(LEASE, repo, digest), request(READ, digest=digest, number=number), request(GIVE_BACK, number=number)]
        yield "lease, read, give back", store.cost(flat(lease(first + 1 + at, *name) for at, name in enumerate(names)), calls)
        mount = lambda repo, digest: [request(MOUNT, "acme/x", digest, repo), request(DELETE, "acme/x", digest)]
        yield "mount, delete", store.cost(flat(mount(*name) for name in names), calls)
        yield "usage, free slots", store.cost(flat([request(USAGE, "acme/0"), request(FREE_SLOTS)] for _ in some), calls)
        yield "sweep of nothing", store.cost([request(SWEEP) for _ in some], calls)
        new = [b"new %d" % number for number in range(calls)]
        yield "start, close", store.cost(flat(store.upload("acme/0", body) for body in new), calls)
        yield "delete", store.cost([request(DELETE, "acme/0", sha256(body)) for body in new], calls)
        yield "sweep of one in " + str(calls), store.cost([request(SWEEP)], calls)


class Repositories(Growth):
    """Repositories of one tenant, with one link each to one blob."""

    def grow(self, old, size):
        if not old:
            self.store.play(self.store.upload("acme/0", content(0)))
        self.store.play(request(MOUNT, f"acme/{number}", sha256(content(0)), "acme/0") for number in range(max(old, 1), size))

    def costs(self, size, calls):
        store, some = self.store, [max(number, 1) for number in self.some(size, calls)]
        digest = sha256(content(0))
        yield "start, abandon", store.cost(flat(store.opened() for _ in some), calls)
        yield "stat", store.cost([request(STAT, f"acme/{number}", digest) for number in some], calls)
        yield "delete, remove, mount", store.cost(
            flat([request(DELETE, f"acme/{n}", digest), request(REMOVE_REPO, f"acme/{n}"), request(MOUNT, f"acme/{n}", digest, "acme/0")] for n in some), calls)


class Manifests(Growth):
    """Manifests of one repository."""

    def grow(self, old, size):
        if not old:
            self.store.play(self.store.upload("acme/0", content(0)))
        self.store.play(request(PUT_MANIFEST, "acme/0", body=manifest(number)) for number in range(old, size))

    def costs(self, size, calls):
        store, some = self.store, self.some(size, calls)
        digests = [sha256(manifest(number)) for number in some]
        yield "get", store.cost([request(GET_MANIFEST, "acme/0", digest) for digest in digests], calls)
        new = [manifest(-1 - number) for number in range(calls)]
        yield "put, delete", store.cost(
            flat([request(PUT_MANIFEST, "acme/0", body=body), request(DELETE_MANIFEST, "acme/0", sha256(body))] for body in new), calls)


KINDS = {"blobs": (Blobs, (10, 14, 17, 20)), "repositories": (Repositories, (10, 13, 16)), "manifests": (Manifests, (10, 13, 16))}


def table(kind, options, room):
    """Measures a store of a kind, and prints its table."""
    grows, exponents = KINDS[kind]
    exponents = [one for one in exponents if one <= options.most]
    store = Store(options.program, (1 << max(exponents)) + 4 * options.calls, room, options.instructions)
    growth, old, last, rows = grows(store), 0, store.memory(), {}
    print(f"\n{kind}: {grows.__doc__}")
    if not options.instructions:
        print(f"Memory of the empty store: {last / MIB:.1f} MiB", flush=True)
    for exponent in exponents:
        size = 1 << exponent
        growth.grow(old, size)
        memory = store.memory()
        if not options.instructions:
            rows.setdefault("MiB", []).append(f"{memory / MIB:,.1f}")
            rows.setdefault("bytes for each more", []).append(f"{(memory - last) / (size - old):,.0f}")
        for name, cost in growth.costs(size, options.calls):
            rows.setdefault(name, []).append(f"{cost:,.0f}" if options.instructions else f"{cost:.2f}")
        old, last = size, store.memory()
    store.end()
    print(f"{'':24}" + "".join(f"{f'2^{exponent}':>12}" for exponent in exponents))
    for name, values in rows.items():
        print(f"{name:24}" + "".join(f"{value:>12}" for value in values), flush=True)


def main():
    parser = argparse.ArgumentParser(description=__doc__, formatter_class=argparse.RawDescriptionHelpFormatter)
    parser.add_argument("--program", default=str(TOP / "crates/blobd/out/blobd"))
    parser.add_argument("--most", type=int, default=20)
    parser.add_argument("--calls", type=int, default=10_000)
    parser.add_argument("--instructions", action="store_true")
    parser.add_argument("kinds", nargs="*", default=list(KINDS), metavar="KIND", help=", ".join(KINDS))
    options = parser.parse_args()
    for kind in options.kinds:
        with tempfile.TemporaryDirectory() as room:
            table(kind, options, room)


main()
