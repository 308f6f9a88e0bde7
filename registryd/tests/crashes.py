#!/usr/bin/env python3
"""Clients push, pull and delete, while a registryd with a folder, its blobd, or both are killed at random, and while the power is taken
away. After each restart everything that was answered is compared.

    crashes.py [--kills N] [--losses N] [--seed S] [--jobs N] [--most BYTES] [--must-fail]

The clients are three that speak HTTP by themselves, and skopeo or podman. Each loss of power is simulated: after a kill, the log of blobd
and the files of the database are cut and damaged after what was synced (crates/blobd/crashes/shim.c, crash/disk.py). With --must-fail
nothing is synced, and the test fails if nothing is missed, of the log or of the database; it fails too if the comparisons overlook a
change that no client made. It needs cc and skopeo. It runs podman if that can be started. A seed repeats the choices of a run, but not
its times."""
import argparse
import collections
import multiprocessing
import pathlib
import sys
import tempfile

sys.dont_write_bytecode = True
from crash.rounds import Lane  # noqa: E402

# The number of kills and of losses of power of a run that is not told it.
KILLS, LOSSES = 16, 8

# The greatest number of bytes of a chunk or of a blob in one request. The registry gives a store a MiB at a time.
MOST = 2_500_000


def runs(number, options):
    """Runs a part of the rounds. Returns what was counted."""
    def share(count):
        return count // options.jobs + (number < count % options.jobs)
    with tempfile.TemporaryDirectory() as path:
        lane = Lane(pathlib.Path(path), options.seed * 1000 + number, options.most)
        try:
            if options.must_fail:
                lane.must_fail()
            else:
                lane.runs(share(options.kills), share(options.losses))
        finally:
            lane.clears()
    return lane.counts


def main():
    parser = argparse.ArgumentParser(description=__doc__, formatter_class=argparse.RawDescriptionHelpFormatter)
    parser.add_argument("--kills", type=int, default=KILLS, metavar="N", help="kill N times")
    parser.add_argument("--losses", type=int, default=LOSSES, metavar="N", help="take the power away N times")
    parser.add_argument("--seed", type=int, default=1, metavar="S", help="begin the random choices with S")
    parser.add_argument("--jobs", type=int, default=2, metavar="N", help="use N registries at the same time")
    parser.add_argument("--most", type=int, default=MOST, metavar="BYTES", help="send at most BYTES at once")
    parser.add_argument("--must-fail", action="store_true", help="only show that lost changes are found if nothing is synced")
    options = parser.parse_args()
    options.jobs = 1 if options.must_fail else options.jobs
    with multiprocessing.get_context("fork").Pool(options.jobs) as pool:
        found = pool.starmap(runs, [(number, options) for number in range(options.jobs)])
    made = sum(found, collections.Counter())
    print(
        f"registry: {made['kills']} kills, {made['losses']} losses of power ({made['bytes lost']:,} bytes), "
        f"{made['failures']} failing disks, {made['requests']:,} requests, "
        f"{made['in flight']:,} changes in flight, {made['comparisons']:,} comparisons, {made['wrong']} failed, seed {options.seed}"
    )
    return 1 if made["wrong"] else 0


if __name__ == "__main__":
    sys.exit(main())
