#!/usr/bin/env python3
"""Measures the speedup of several threads that read a blob under leases.

The program in bench/reads is built in a copy of the crates, because it is not one of them: the gate neither proves nor
runs it. It reads a blob of 16 MiB in pieces of 64 KiB, 8 GiB in total, in 1, 2 and 4 threads. Each thread has a desk,
and repeatedly leases the blob, reads it and releases the lease. The output has the wall time in milliseconds for each
number of threads, and the speedup over one thread.

    bench/reads.py [--runs N]
"""
import argparse
import os
import shutil
import subprocess
import sys
import tempfile

TOP = os.path.join(os.path.dirname(os.path.abspath(__file__)), "..")
NAME = "lease_reads"
FILES = {"main.rt.txt": "src/main.rt", "Invariants.antt.txt": "proofs/main/Invariants.antt"}


def build(copy):
    """Builds the program in a copy of the crates and of the results of their earlier checks, and returns its path."""
    shutil.copytree(f"{TOP}/crates", f"{copy}/crates", ignore=shutil.ignore_patterns("blobctl", "must-fail"))
    shutil.copy(f"{TOP}/HANDLES", copy)
    shutil.copy(f"{TOP}/crates.txt", copy)
    with open(f"{copy}/crates.txt") as file:
        lines = [line for line in file if not line.startswith("blobctl")]
    with open(f"{copy}/crates.txt", "w") as file:
        file.writelines([*lines, f"{NAME}: blob_store store_book blob_digest anyhow\n"])
    for source, place in FILES.items():
        place = f"{copy}/crates/{NAME}/{place}"
        os.makedirs(os.path.dirname(place), exist_ok=True)
        shutil.copy(f"{TOP}/bench/reads/{source}", place)
    folder = f"{copy}/crates/{NAME}"
    done = subprocess.run(["rt", "run"], cwd=folder, stdout=subprocess.PIPE, stderr=subprocess.STDOUT, text=True)
    if done.returncode:
        sys.exit(f"bench/reads.py: cannot build or run the program:\n{done.stdout[-4000:]}")
    return f"{folder}/out/{NAME}"


def times(program):
    """Runs the program once. Returns the wall time in milliseconds for each number of threads."""
    done = subprocess.run([program], stdout=subprocess.PIPE, text=True, check=True)
    return {int(threads): int(took) for threads, took in map(str.split, done.stdout.splitlines())}


def main():
    words = argparse.ArgumentParser(description=__doc__, formatter_class=argparse.RawDescriptionHelpFormatter)
    words.add_argument("--runs", type=int, default=3, help="number of runs; the minimum counts (3)")
    options = words.parse_args()
    with tempfile.TemporaryDirectory() as copy:
        program = build(copy)
        runs = [times(program) for _ in range(options.runs)]
    print(f"{os.cpu_count()} processors")
    least = {threads: min(run[threads] for run in runs) for threads in runs[0]}
    for threads, took in least.items():
        print(f"{threads} threads {took:8d} ms {least[1] / took:7.2f}")


if __name__ == "__main__":
    main()
