#!/usr/bin/env python3
"""Measures the cost of a reference in the longest manifest, also in manifests made to be expensive.

A manifest of 4 MiB has about 49,000 digests. It is put into a repository that has none of its blobs, so that it is
read and the put fails. The output has the processor time of a reference in microseconds, and its ratio to that of an
ordinary manifest with the digests of some blobs. The other manifests have digests chosen by a client: digests that
differ only in their last bytes, in ascending order; and digests that std's hasher, whose seed is fixed, puts into one
group of a table, which takes some minutes to find. The time to read the script is measured with the same rows for an
unknown tenant, and subtracted.

    bench/manifest.py [--rows N] [--runs N]
"""
import argparse
import re

from play import row, seconds, sha256

LONGEST = 4_194_304
HEAD, TAIL = '{"schemaVersion":2,"config":', "]}"
EMPTY = "sha256:" + 64 * "0"


def descriptor(digest):
    return f'{{"digest":"{digest}"}}'


COUNT = (LONGEST - len(HEAD) - len(',"layers":[') - len(TAIL) + 1) // (len(descriptor(EMPTY)) + 1)


def ordinary():
    """Returns the digests of some blobs."""
    return [sha256(str(number).encode()) for number in range(COUNT)]


def alike():
    """Returns digests that differ only in their last bytes."""
    return [f"sha256:{number:064x}" for number in range(COUNT)]


# std's hasher adds a number or a byte by a multiplication to 128 bits, and combines the halves.
LOW = (1 << 64) - 1
SEED, FACTOR = 0x243F6A8885A308D3, 0x9E3779B97F4A7C15
SPREAD = 0x010101
# A table for COUNT entries has 8,192 groups. The lowest 13 bits of a hash select the group.
GROUP_BITS = 13
# All values of the last two bytes of a digest are tried at once, in lanes of 128 bits of one number.
LANES = 1 << 16
LANE = sum(1 << (128 * lane) for lane in range(256))
LAST_BYTES = sum(LANE * (byte * SPREAD) << (128 * 256 * byte) for byte in range(256))
ALL_LANES = sum(LANE << (128 * 256 * turn) for turn in range(256))
LOW_HALVES = ALL_LANES * LOW
GROUPS = ALL_LANES * ((1 << GROUP_BITS) - 1)
MARKS = ALL_LANES * 0xFFFF0000


def taken_in(state, number, factor):
    product = (state ^ number) * factor
    return (product & LOW) ^ (product >> 64)


def byte_in(state, byte):
    return taken_in(state, byte * SPREAD, FACTOR ^ 2)


def state_after(head):
    """Returns the hasher's state after the algorithm, the length, and the first bytes of a SHA-256 value."""
    state = taken_in(taken_in(SEED, 0, FACTOR ^ 16), 32, FACTOR ^ 16)
    for byte in head:
        state = byte_in(state, byte)
    return state


def in_one_group(head):
    """Yields the values that begin with these 30 bytes and whose hashes select the first group."""
    state = state_after(head)
    packed = b"".join(byte_in(state, byte).to_bytes(16, "little") for byte in range(256))
    product = (int.from_bytes(packed * 256, "little") ^ LAST_BYTES) * (FACTOR ^ 2)
    states = (product ^ (product >> 64)) & LOW_HALVES
    groups = ((states ^ (states >> 32)) & GROUPS) | MARKS
    for found in re.finditer(b"\0\0\xff\xff", groups.to_bytes(LANES * 16, "little")):
        lane = found.start() // 16
        yield head + bytes([lane % 256, lane // 256])


def colliding():
    """Returns digests that std's hasher puts into one group of a table."""
    found, number = [], 0
    while len(found) < COUNT:
        number += 1
        found += in_one_group(number.to_bytes(30, "big"))
    return [f"sha256:{value.hex()}" for value in found[:COUNT]]


def manifest(digests):
    names = [descriptor(digest) for digest in digests]
    return f'{HEAD}{names[0]},"layers":[{",".join(names[1:])}{TAIL}'


def script(repo, text, rows):
    quoted = '"' + text.replace('"', '""') + '"'
    return (row("put_manifest", repo, body=quoted) * rows).encode()


def main():
    words = argparse.ArgumentParser(description=__doc__, formatter_class=argparse.RawDescriptionHelpFormatter)
    words.add_argument("--rows", type=int, default=4, help="number of puts of each manifest (4)")
    words.add_argument("--runs", type=int, default=3, help="number of runs; the minimum counts (3)")
    options = words.parse_args()
    print(f"{COUNT} references")
    first = None
    for says, make in {
        "digests of blobs": ordinary,
        "different only in their last bytes": alike,
        "in one group of a hash table": colliding,
    }.items():
        text = manifest(make())
        assert len(text) <= LONGEST
        unread = seconds(["acme=1"], script("nobody/one", text, options.rows), options.runs)
        took = seconds(["acme=1"], script("acme/one", text, options.rows), options.runs)
        each = (took - unread) * 1e6 / (options.rows * COUNT)
        first = first or each
        print(f"{each:8.2f} us a reference {each / first:8.2f}  {says}", flush=True)


if __name__ == "__main__":
    main()
