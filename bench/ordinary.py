#!/usr/bin/env python3
"""Compares blobctl with a program in ordinary Rust that does the same.

bench/ordinary is that program: HashMaps, BTreeMaps, a Mutex, atomics. It is built by cargo, from Debian's packages
librust-csv-dev, librust-hex-dev, librust-serde-json-dev and librust-sha2-dev if they are installed. Each workload is a
script. Both programs run it once, and their outputs are compared byte for byte. Then they run it in turn. The output has
the medians of the processor times in milliseconds, their ratio, and the ratio of the minima. If the processor has
instructions for SHA-256, the ordinary program uses them; the kit's `sha2` does not.

With --both-hashes the ordinary program hashes each chunk by both algorithms on arrival. A program without hashing at
close needs this, because a close may use either algorithm.

    bench/ordinary.py [--runs N] [--both-hashes] [WORKLOAD..]
"""
import argparse
import filecmp
import os
import statistics
import subprocess
import sys
import tempfile

import growth
import threads
from play import PROGRAM, measured, row, sha256

TOP = os.path.join(os.path.dirname(os.path.abspath(__file__)), "..")
FOLDER = f"{TOP}/bench/ordinary"
ORDINARY = f"{FOLDER}/target/release/ordinary"
DEBIAN = "/usr/share/cargo/registry"
MIB = 1 << 20


def build():
    command = ["cargo", "build", "--release", "--quiet"]
    if os.path.isdir(DEBIAN):
        source = 'source.crates-io.replace-with="debian"', f'source.debian.directory="{DEBIAN}"'
        command += ["--offline", "--config", source[0], "--config", source[1]]
    if subprocess.run(command, cwd=FOLDER).returncode:
        sys.exit("bench/ordinary.py: cannot build bench/ordinary: install cargo and the packages of `bench/ordinary.py --help`")


def words_of(tenants, *options):
    return ["--slots", "65536", "--max-blob", str(1 << 30), *options, *(f"{name}={growth.QUOTA}" for name in tenants)]


def grown(name):
    """Returns a workload of bench/growth.py at its full size."""
    make, full = growth.WORKLOADS[name]
    tenants, rows = make(full)
    return words_of(tenants), "".join(rows).encode()


def small():
    """Runs 60,000 small rows in one lane: blobs are stored, mounted, and deleted from the first repository."""
    return words_of(threads.TENANTS), threads.small(60000).encode()


def small_by_four():
    words, script = small()
    return ["--workers", "4", *words], script


def uploads():
    """Uploads 200 MiB in 50 blobs, each in chunks of a MiB."""
    rows = []
    for number in range(1, 51):
        body = f"{number:02d}" * (MIB // 2)
        rows += [row("start", "acme/one"), *(row("append", "acme/one", number, body=body) for _ in range(4))]
        rows.append(row("close", "acme/one", number, sha256(body.encode() * 4)))
    return words_of(["acme"]), "".join(rows).encode()


def sweeps():
    """Stores, deletes and sweeps a blob 5,000 times in a store of 65,536 slots."""
    rows = []
    for number in range(1, 5001):
        digest = sha256(f"s{number}".encode())
        rows += [row("start", "acme/one"), row("close", "acme/one", number, digest, "", f"s{number}")]
        rows += [row("delete", "acme/one", "", digest), row("sweep")]
    return words_of(["acme"]), "".join(rows).encode()


def leases():
    """Leases a blob of 4 KiB, shares the lease, reads twice and releases both halves, 10,000 times."""
    body = "l" * 4096
    digest = sha256(body.encode())
    rows = [row("start", "acme/one"), row("close", "acme/one", 1, digest, "", body)]
    for _ in range(10000):
        rows += [row("lease", "acme/one", "a", digest), row("share", "", "a", body="b")]
        rows += [row("read", "", "a", "", "0-15"), row("read", "", "b", "", "16-31")]
        rows += [row("give_back", "", "a"), row("give_back", "", "b")]
    return words_of(["acme"]), "".join(rows).encode()


def refused_closes():
    """Closes a session of a MiB 2,000 times with a wrong digest and a last chunk of 16 KiB, then with the right one."""
    body, last = "r" * MIB, "q" * 16384
    rows = [row("start", "acme/one"), row("append", "acme/one", 1, body=body)]
    rows += [row("close", "acme/one", 1, sha256(str(n).encode()), "", last) for n in range(2000)]
    rows.append(row("close", "acme/one", 1, sha256(body.encode())))
    return words_of(["acme"]), "".join(rows).encode()


WORKLOADS = {
    "small rows": small,
    "the same by 4 workers": small_by_four,
    "200 MiB of uploads": uploads,
    "sweeps": sweeps,
    "leases": leases,
    "refused closes": refused_closes,
    **{name: (lambda name=name: grown(name)) for name in growth.WORKLOADS},
}


class Figures:
    """The times of a workload's runs, of blobctl and of the ordinary program, which may have arguments of its own."""

    def __init__(self, words, script, runs, its_words=()):
        self.times = [], []
        with tempfile.TemporaryDirectory() as room:
            path, outs = f"{room}/script.csv", (f"{room}/blobctl", f"{room}/ordinary")
            with open(path, "wb") as file:
                file.write(script)
            commands = (PROGRAM, words), (ORDINARY, [*its_words, *words])
            for turn in range(runs + 1):
                for (program, given), times, out in zip(commands, self.times, outs):
                    _, usage = measured(program, given, path, os.devnull if turn else out)
                    if turn:
                        times.append((usage.ru_utime + usage.ru_stime) * 1000)
                if not turn and not filecmp.cmp(*outs, shallow=False):
                    sys.exit("bench/ordinary.py: the outputs of the two programs differ")

    def medians(self):
        return [statistics.median(times) for times in self.times]

    def least(self):
        return min(self.times[0]) / min(self.times[1])


def main():
    words = argparse.ArgumentParser(description=__doc__, formatter_class=argparse.RawDescriptionHelpFormatter)
    words.add_argument("--runs", type=int, default=9, help="number of runs of each program (9)")
    words.add_argument("--both-hashes", action="store_true", help="hash chunks by both algorithms in the ordinary program")
    words.add_argument("workload", nargs="*", help="workloads to run (all)")
    options = words.parse_args()
    build()
    print(f"{'workload':<24}{'blobctl':>9}{'ordinary':>10}{'ratio':>7}{'least':>7}")
    for name in options.workload or WORKLOADS:
        found = Figures(*WORKLOADS[name](), options.runs, ["--both-hashes"] * options.both_hashes)
        ours, theirs = found.medians()
        print(f"{name:<24}{ours:9.1f}{theirs:10.1f}{ours / theirs:7.2f}{found.least():7.2f}", flush=True)


if __name__ == "__main__":
    main()
