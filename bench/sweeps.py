#!/usr/bin/env python3
"""Measures how long small commands of blobd take during a sweep that frees many blobs.

A store has as many slots as blobs are uploaded, and twice. All blobs lose their links, so that half of the slots are condemned by one
sweep. Two connections are used: one sends the sweep, and the other opens and abandons an upload again and again, each request after
the reply to the one before. The output has the time of the sweep, and of the requests before and beside it: their number, the median, the
99th percentile and the longest, in milliseconds.

    bench/sweeps.py [--program BLOBD] [--blobs EXPONENT] [--leased]

With --leased a lease of each blob was taken and given back, so that the sweep asks the words of all slots.

It needs a built blobd."""
import argparse
import itertools
import pathlib
import sys
import tempfile
import threading
import time

TOP = pathlib.Path(__file__).resolve().parent.parent
sys.dont_write_bytecode = True
sys.path[:0] = [str(TOP / "crates/blobd/crashes"), str(TOP / "crates/blobd")]
from data_folder import Blobd
from frames import ABANDON, CLOSE, DELETE, GIVE_BACK, LEASE, START, SWEEP, request, sha256

QUOTA = 1 << 50
# The requests that are sent before their replies are read. They fit into a pipe.
TOGETHER = 64


def play(connection, requests):
    """Sends requests, some together, and reads the replies."""
    waiting = []
    for one in itertools.chain(requests, [None]):
        if one is not None:
            waiting.append(one)
        if len(waiting) == TOGETHER or one is None:
            connection.writes(b"".join(waiting))
            for _ in waiting:
                accepted(connection.hears())
            waiting = []


def accepted(reply):
    """Checks that a reply is no refusal."""
    if reply[:4] != bytes(4):
        sys.exit(f"bench/sweeps.py: status {int.from_bytes(reply[:4], 'little')}")


def content(number):
    return b"blob %d" % number


def uploads(count):
    for number in range(count):
        yield request(START, "one/0")
        yield request(CLOSE, "one/0", sha256(content(number)), number=number + 1, body=content(number))


def leases(connection, count):
    """Takes a lease of each blob, and gives it back."""
    first = connection.calls(LEASE, "one/0", sha256(content(0))).second
    connection.calls(GIVE_BACK, number=first)
    for number in range(1, count):
        yield request(LEASE, "one/0", sha256(content(number)))
        yield request(GIVE_BACK, number=first + number)


def small(connection, number, stop):
    """Opens and abandons uploads until it is stopped. Returns the times of the requests in milliseconds."""
    times = []
    while not stop.is_set():
        for one in (request(START, "two/0"), request(ABANDON, "two/0", number=number)):
            before = time.perf_counter()
            accepted(connection.asks(one))
            times.append((time.perf_counter() - before) * 1000)
        number += 1
    return times, number


def report(name, times):
    times.sort()
    print(f"{name:8} {len(times):8} requests: median {times[len(times) // 2]:.3f}, 99th percentile {times[len(times) * 99 // 100]:.3f}, longest {times[-1]:.3f} ms")


def beside(connection, number, work):
    """Makes small requests while some work is done. Returns the seconds of the work, and the times of the requests."""
    stop, found = threading.Event(), []
    thread = threading.Thread(target=lambda: found.append(small(connection, number, stop)))
    thread.start()
    before = time.perf_counter()
    work()
    seconds = time.perf_counter() - before
    stop.set()
    thread.join()
    return seconds, *found[0]


def main():
    parser = argparse.ArgumentParser(description=__doc__, formatter_class=argparse.RawDescriptionHelpFormatter)
    parser.add_argument("--program", default=str(TOP / "crates/blobd/out/blobd"))
    parser.add_argument("--blobs", type=int, default=19, metavar="EXPONENT")
    parser.add_argument("--leased", action="store_true")
    options = parser.parse_args()
    count = 1 << options.blobs
    with tempfile.TemporaryDirectory() as folder:
        tenants = [f"{name}={QUOTA},{2 * count},65536,1048576,4096" for name in ("one", "two")]
        blobd = Blobd([options.program, str(2 * count), "1024", *tenants], pathlib.Path(folder), 2)
        sweeper, other = blobd.opens()
        play(sweeper, uploads(count))
        if options.leased:
            play(sweeper, leases(sweeper, count))
        play(sweeper, (request(DELETE, "one/0", sha256(content(number))) for number in range(count)))
        _, alone, number = beside(other, 1, lambda: time.sleep(1))
        swept = []
        seconds, times, _ = beside(other, number, lambda: swept.append(sweeper.calls(SWEEP)))
        if (swept[0].status, swept[0].first, swept[0].second) != (0, count, 0):
            sys.exit(f"bench/sweeps.py: the sweep freed {swept[0].first} slots, and leases hold {swept[0].second}")
        report("before", alone)
        report("beside", times)
        print(f"the sweep of {count} blobs in {2 * count} slots took {seconds:.3f} s")
        blobd.ends()


main()
