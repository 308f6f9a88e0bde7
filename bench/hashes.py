#!/usr/bin/env python3
"""Measures the cost of uploading a MiB.

Each output line is the processor time of a MiB in milliseconds. The first two are of chunks of a MiB each: chunks that
fail before anything is hashed, and chunks added by `append`, for a close by either algorithm. The others are of an
upload sent entirely with its close: one that fails unhashed, and one closed by each algorithm.

    bench/hashes.py [--mib N] [--runs N]
"""
import argparse

from play import row, seconds, sha256, sha512

CHUNK = 1 << 20


def script(kind, mib):
    """Returns the rows of a session of `mib` MiB, in chunks or all in its close. Session 2 does not exist."""
    whole = b"x" * (CHUNK * mib)
    rows = [row("start", "acme/one").encode()]
    if kind in ("refused chunks", "appended"):
        session = 2 if kind == "refused chunks" else 1
        rows += [row("append", "acme/one", session, "", "", "x" * CHUNK).encode()] * mib
    else:
        session = 2 if kind == "refused whole" else 1
        digest = sha512(whole) if kind == "sha512" else sha256(whole)
        rows.append(row("close", "acme/one", session, digest, "", whole.decode()).encode())
    return b"".join(rows)


def main():
    words = argparse.ArgumentParser(description=__doc__, formatter_class=argparse.RawDescriptionHelpFormatter)
    words.add_argument("--mib", type=int, default=64, help="the length of the upload in MiB (64)")
    words.add_argument("--runs", type=int, default=3, help="number of runs; the minimum counts (3)")
    options = words.parse_args()
    limits = ["--max-blob", str(1 << 30), f"acme={1 << 40}"]
    for kind, says in {
        "refused chunks": "chunks read and refused, nothing hashed",
        "appended": "chunks appended, for either algorithm",
        "refused whole": "sent with a close, read and refused, nothing hashed",
        "sha256": "sent with a close by SHA-256",
        "sha512": "sent with a close by SHA-512",
    }.items():
        took = seconds(limits, script(kind, options.mib), options.runs)
        print(f"{took * 1000 / options.mib:8.2f} ms a MiB  {says}", flush=True)


if __name__ == "__main__":
    main()
