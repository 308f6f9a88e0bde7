#!/usr/bin/env python3
"""Measures the speedup of several workers.

Each workload is one script, run with 1, 2 and 4 workers. It has four lanes, each with a tenant of its own, so that the
workers share only the store. The output has the median and the minimum of the wall times in milliseconds for each
number of workers, and the speedup of the largest number. One thread reads and parses the entire script before it is
run. The workload "read and refused" measures this time for an upload.

    bench/threads.py [--mib N] [--runs N] [WORKLOAD..]
"""
import argparse
import os
import statistics

from play import row, sha256, wall_seconds

LANES = 4
WORKERS = (1, 2, 4)
CHUNK = 1 << 20
TENANTS = [f"t{lane}" for lane in range(LANES)]


def lanes_in_turn(rows_of):
    """Returns the rows of the lanes, one of each lane in turn."""
    return "".join(row for turn in zip(*(rows_of(lane) for lane in range(LANES))) for row in turn)


def uploads(mib, session=1):
    """Uploads `mib` MiB in all lanes, each a session of chunks of a MiB that is closed. Session 2 does not exist."""

    def rows_of(lane):
        repo, body = f"{TENANTS[lane]}/one", "abcd"[lane] * CHUNK
        chunks = mib // LANES
        yield row("start", repo, lane=lane)
        for _ in range(chunks):
            yield row("append", repo, session, body=body, lane=lane)
        yield row("close", repo, session, sha256(body.encode() * chunks), lane=lane)

    return lanes_in_turn(rows_of)


def small(count):
    """Returns `count` rows: small blobs are stored, mounted, and deleted from the first repository."""

    def rows_of(lane):
        one, two = f"{TENANTS[lane]}/one", f"{TENANTS[lane]}/two"
        for number in range(1, count // (5 * LANES) + 1):
            body = f"b{lane}-{number}"
            digest = sha256(body.encode())
            yield row("start", one, lane=lane)
            yield row("append", one, number, body=body, lane=lane)
            yield row("close", one, number, digest, lane=lane)
            yield row("mount", two, one, digest, lane=lane)
            yield row("delete", one, "", digest, lane=lane)

    return lanes_in_turn(rows_of)


def workloads(mib):
    return {
        "refused": (f"{mib} MiB in chunks, read and refused", lambda: uploads(mib, session=2)),
        "uploads": (f"{mib} MiB in chunks, appended and closed", lambda: uploads(mib)),
        "small": ("65,000 small commands", lambda: small(65000)),
    }


def main():
    words = argparse.ArgumentParser(description=__doc__, formatter_class=argparse.RawDescriptionHelpFormatter)
    words.add_argument("--mib", type=int, default=160, help="total length of the uploads in MiB (160)")
    words.add_argument("--runs", type=int, default=9, help="number of runs of each, in turn (9)")
    words.add_argument("workload", nargs="*", help="workloads: refused, uploads, small (all)")
    options = words.parse_args()
    known = workloads(options.mib)
    limits = ["--slots", "65536", "--max-blob", str(1 << 30), *(f"{tenant}={1 << 40}" for tenant in TENANTS)]
    print(f"{os.cpu_count()} processors")
    print("".join(f"{f'{workers} workers':>12}" for workers in WORKERS) + "    gain")
    for name in options.workload or known:
        says, make = known[name]
        script = make().encode()
        took = {workers: [] for workers in WORKERS}
        for _ in range(options.runs):
            for workers in WORKERS:
                took[workers].append(wall_seconds(["--workers", str(workers), *limits], script, 1))
        for kind, of in (("median", statistics.median), ("least", min)):
            times = [of(took[workers]) for workers in WORKERS]
            line = "".join(f"{seconds * 1000:12.0f}" for seconds in times)
            print(f"{line}{times[0] / times[-1]:8.2f}  {says}, {kind}")


if __name__ == "__main__":
    main()
