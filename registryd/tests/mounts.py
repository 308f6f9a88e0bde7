"""Tests that mount file systems. They need root, and run in mounts of their own."""
import os, shutil, subprocess, sys

# The status of a script that cannot run here.
CANNOT = 3


def run(*words):
    """Runs a command, and returns its output."""
    return subprocess.run(words, check=True, stdout=subprocess.PIPE, stderr=subprocess.PIPE, text=True).stdout


def in_own_mounts(tools):
    """Starts the script again in mounts of its own. Ends it if it does not run as root, or if a tool is missing."""
    if os.getuid() != 0 or not all(shutil.which(tool) for tool in ("unshare", "mount", "umount", *tools)):
        sys.exit(CANNOT)
    if sys.argv[1:] != ["--in-own-mounts"]:
        os.execvp("unshare", ["unshare", "-m", sys.executable, os.path.abspath(sys.argv[0]), "--in-own-mounts"])
