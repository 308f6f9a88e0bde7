#!/usr/bin/env python3
"""Measures requests of registryd and its memory as tags, manifests and repositories grow.

A registry with a folder grows from size to size: tags and manifests of one repository, manifests with one subject in another, and
repositories with a manifest each. At each size the output has for each request the processor time of registryd in microseconds, and the
median of the time until the reply is there, and the resident memory of registryd in MiB, before and after it starts anew. The numbers of a
program are in one column, so that two programs can be compared.

    bench/lists.py [--blobd BLOBD] [--sizes EXPONENT..] [--calls N] REGISTRYD..

A repository has at most 65,536 manifests, so the greatest exponent is 15. It needs a built registryd and a built blobd."""
import argparse
import hashlib
import http.client
import itertools
import json
import os
import pathlib
import re
import statistics
import subprocess
import sys
import tempfile
import threading
import time

TOP = pathlib.Path(__file__).resolve().parent.parent
INDEX = "application/vnd.oci.image.index.v1+json"
# The runtime of a build without proof would hold back 256 MiB of freed memory.
OPTIONS = "quarantine_size_mb=0:thread_local_quarantine_size_kb=0"


def content(name, subject=None):
    """Returns an index that lists nothing."""
    document = {"schemaVersion": 2, "mediaType": INDEX, "manifests": [], "annotations": {"name": name}}
    return json.dumps(document if subject is None else {**document, "subject": subject, "artifactType": "a/b"}).encode()


def digest_of(data):
    return "sha256:" + hashlib.sha256(data).hexdigest()


SUBJECT = content("subject")
DESCRIPTOR = {"mediaType": INDEX, "digest": digest_of(SUBJECT), "size": len(SUBJECT)}


class Registry:
    """A registryd with a folder, and one connection to it. It does not sync, so that no time is that of a disk."""

    def __init__(self, registryd, blobd, room):
        self.room = room
        self.log = open(f"{room}/log", "w+b")
        words = [registryd, "--listen", "127.0.0.1:0", "--blobd", blobd, "--data", f"{room}/registry", "--sync", "never", "--slots", "1024",
                 "--manifest-bytes", str(1 << 40), f"t={1 << 40},1024"]
        self.process = subprocess.Popen(words, stdout=self.log, stderr=self.log, env={**os.environ, "ASAN_OPTIONS": OPTIONS})
        begun = time.monotonic()
        while not (found := re.search(rb"listening address=127\.0\.0\.1:(\d+)", self.logged())):
            if self.process.poll() is not None or time.monotonic() - begun > 600:
                sys.exit(f"bench/lists.py: registryd does not start: {self.logged().decode()}")
            time.sleep(0.01)
        self.port, self.started = int(found.group(1)), time.monotonic() - begun
        self.connection = http.client.HTTPConnection("127.0.0.1", self.port)

    def logged(self):
        return os.pread(self.log.fileno(), 1 << 24, 0)

    def end(self):
        self.process.terminate()
        self.process.wait()

    def memory(self):
        """Returns the resident memory in MiB."""
        status = pathlib.Path(f"/proc/{self.process.pid}/status").read_text()
        return int(re.search(r"VmRSS:\s+(\d+)", status).group(1)) / 1024

    def used(self):
        """Returns the processor time of all threads in microseconds."""
        threads = pathlib.Path(f"/proc/{self.process.pid}/task").glob("*/schedstat")
        return sum(int(thread.read_text().split()[0]) for thread in threads) / 1000

    def ask(self, method, path, body=None, connection=None):
        connection = connection or self.connection
        connection.request(method, path, body, {"Content-Type": INDEX} if body else {})
        reply = connection.getresponse()
        data = reply.read()
        if reply.status not in (200, 201, 202):
            sys.exit(f"bench/lists.py: {method} {path}: {reply.status} {data[:200]}")
        return data

    def put(self, repository, reference, data, connection=None):
        self.ask("PUT", f"/v2/{repository}/manifests/{reference}", data, connection)

    def fill(self, puts):
        """Puts manifests by several connections."""
        lock = threading.Lock()

        def run():
            connection = http.client.HTTPConnection("127.0.0.1", self.port)
            while True:
                with lock:
                    one = next(puts, None)
                if one is None:
                    return
                self.put(*one, connection)

        threads = [threading.Thread(target=run) for _ in range(8)]
        for thread in threads:
            thread.start()
        for thread in threads:
            thread.join()

    def cost(self, calls, request):
        """Returns the processor time of a request, and the median of its time, in microseconds."""
        request(0)
        before, times = self.used(), []
        for number in range(1, calls + 1):
            begun = time.perf_counter()
            request(number)
            times.append(time.perf_counter() - begun)
        return (self.used() - before) / calls, statistics.median(times) * 1e6


def filling(begin, end):
    """Returns what is put to grow from a size to another."""
    numbers = range(begin, end)
    tags = (("t/one", f"v{number:06}", content(f"one {number}")) for number in numbers)
    referrers = (("t/two", digest_of(data), data) for data in (content(f"two {number}", DESCRIPTOR) for number in numbers))
    repositories = ((f"t/r{number:06}", "v1", content(f"r {number}")) for number in numbers)
    return itertools.chain(tags, referrers, repositories)


def requests(registry, size, calls):
    """Returns each request with its name and the number of its calls."""
    middle, spread = f"{size // 2:06}", 7919
    lists = max(calls // 5, 10)

    def put_new(number):
        registry.put("t/one", f"v{middle}", content(f"new {number}"))

    def delete_new(number):
        registry.ask("DELETE", f"/v2/t/one/manifests/{digest_of(content(f'new {number}'))}")

    return [
        ("HEAD of a tag", calls, lambda number: registry.ask("HEAD", f"/v2/t/one/manifests/v{number * spread % size:06}")),
        ("GET of a tag", calls, lambda number: registry.ask("GET", f"/v2/t/one/manifests/v{number * spread % size:06}")),
        ("100 tags", lists, lambda number: registry.ask("GET", f"/v2/t/one/tags/list?n=100&last=v{middle}")),
        ("100 repositories", lists, lambda number: registry.ask("GET", f"/v2/_catalog?n=100&last=t/r{middle}")),
        ("100 referrers", lists, lambda number: registry.ask("GET", f"/v2/t/two/referrers/{DESCRIPTOR['digest']}?n=100&last=sha256:8")),
        ("no referrers", calls, lambda number: registry.ask("GET", f"/v2/t/one/referrers/{digest_of(content(f'one {number * spread % size}'))}")),
        ("PUT of a manifest, which moves a tag", calls, put_new),
        ("DELETE of a manifest", calls, delete_new),
    ]


def measured(registry, size, calls):
    for name, count, request in requests(registry, size, calls):
        used, median = registry.cost(count, request)
        yield name, f"{used:,.0f} ({median:,.0f})"
    # The tag that moved names its manifest again.
    registry.put("t/one", f"v{size // 2:06}", content(f"one {size // 2}"))


def column(registryd, blobd, sizes, calls):
    """Returns the numbers of a program, by what they are of."""
    found = {}
    with tempfile.TemporaryDirectory(prefix="lists-") as room:
        registry = Registry(registryd, blobd, room)
        found["resident memory when empty, MiB"] = f"{registry.memory():.0f}"
        registry.put("t/two", "subject", SUBJECT)
        for begin, size in zip([0, *sizes], sizes):
            registry.fill(filling(begin, size))
            found[f"{size}: resident memory, MiB"] = f"{registry.memory():.0f}"
            for name, cost in measured(registry, size, calls):
                found[f"{size}: {name}"] = cost
            registry.end()
            registry = Registry(registryd, blobd, room)
            found[f"{size}: start, s"] = f"{registry.started:.1f}"
            found[f"{size}: resident memory after a start, MiB"] = f"{registry.memory():.0f}"
            found[f"{size}: registry.db, MiB"] = f"{os.path.getsize(f'{room}/registry/registry.db') >> 20}"
        registry.end()
    return found


def main():
    parser = argparse.ArgumentParser(description=__doc__.split("\n")[0])
    parser.add_argument("--blobd", default=str(TOP / "crates/blobd/out/blobd"))
    parser.add_argument("--sizes", nargs="+", type=int, default=[10, 15], metavar="EXPONENT")
    parser.add_argument("--calls", type=int, default=1000, metavar="N")
    parser.add_argument("registryd", nargs="+")
    given = parser.parse_args()
    columns = [column(program, given.blobd, [1 << size for size in given.sizes], given.calls) for program in given.registryd]
    for name in columns[0]:
        print("|", " | ".join([name, *(found[name] for found in columns)]), "|", flush=True)


if __name__ == "__main__":
    main()
