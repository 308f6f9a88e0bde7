"""Runs scripts on the built blobctl and measures their processor time or wall time.

The program is crates/blobctl/out/blobctl, which `rt run` builds.
"""
import hashlib
import os
import subprocess
import sys
import tempfile
import time

PROGRAM = os.path.join(os.path.dirname(os.path.abspath(__file__)), "../crates/blobctl/out/blobctl")


def sha256(data):
    return "sha256:" + hashlib.sha256(data).hexdigest()


def sha512(data):
    return "sha512:" + hashlib.sha512(data).hexdigest()


def row(command, repo="", key="", digest="", place="", body="", lane=0):
    return f"{lane},{command},{repo},{key},{digest},{place},{body}\n"


def seconds(words, script, runs):
    """Returns the minimum processor time of `runs` runs of the program on a script, in seconds."""
    return min(processor for _, processor in times(words, script, runs))


def wall_seconds(words, script, runs):
    """Returns the minimum wall time of `runs` runs of the program on a script, in seconds."""
    return min(wall for wall, _ in times(words, script, runs))


def times(words, script, runs):
    """Returns the wall time and the processor time of each run."""
    if not os.path.exists(PROGRAM):
        sys.exit("bench: cannot find blobctl: build it: cd crates/blobctl && rt run -- acme=1 < /dev/null")
    with tempfile.NamedTemporaryFile(suffix=".csv") as file:
        file.write(script)
        file.flush()
        return [one_run(words, file.name) for _ in range(runs)]


def one_run(words, path):
    wall, usage = measured(PROGRAM, words, path, os.devnull)
    return wall, usage.ru_utime + usage.ru_stime


def measured(program, words, path, out):
    """Runs a program on a script file, and writes its output to a file. Returns the wall time and the resource usage."""
    with open(path, "rb") as script, open(out, "wb") as text, tempfile.TemporaryFile() as says:
        start = time.monotonic()
        child = subprocess.Popen([program, *words], stdin=script, stdout=text, stderr=says)
        _, status, usage = os.wait4(child.pid, 0)
        wall = time.monotonic() - start
        child.returncode = os.waitstatus_to_exitcode(status)
        if child.returncode:
            says.seek(0)
            sys.exit(f"bench: {os.path.basename(program)} failed: status {child.returncode}: {says.read().decode()}")
    return wall, usage
