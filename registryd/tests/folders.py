#!/usr/bin/env python3
"""Tests how a registry treats its folder: the rights of what it makes, files that are removed or replaced while it runs, files that it may not
write, and what the system has cached of files that could not be written to the disk."""
import ctypes, mmap, os, pathlib, shutil, stat, tempfile

from crash.paths import build_shim, log_of
from playing import play
from restarts import by_signal, folder, pulled, push, pushed
from server import BLOBD, MANIFEST, REGISTRYD, index_of, push_index, serving
from statuses import check, ended

NOBODY = 65534


def mode(path):
    return stat.S_IMODE(os.stat(path).st_mode)


def files_are_private():
    """Whatever the umask of the caller is."""
    before = os.umask(0)
    try:
        with folder() as path:
            with serving("--data", path) as server:
                pushed(server.client())
                found = {name: mode(f"{path}/{name}") for name in os.listdir(path)}
                assert {"lock", "log.1", "registry.db", "registry.commits"} <= set(found), found
                assert mode(path) == 0o700 and not any(rights & 0o077 for rights in found.values()), (oct(mode(path)), found)
                assert "other users can look into the folder" not in server.logged()
                by_signal(server)
            os.chmod(path, 0o750)
            with serving("--data", path) as server:
                assert "other users can look into the folder: chmod 700 it" in server.logged()
                by_signal(server)
            assert mode(path) == 0o750
    finally:
        os.umask(before)


def removed(path):
    os.remove(path)


def replaced(path):
    shutil.copy(path, f"{path}.copy")
    os.replace(f"{path}.copy", path)


def moved(path):
    os.rename(path, f"{path}.moved")


def a_file_that_is_gone_ends_the_programs():
    """What was acknowledged is there after it was put back."""
    with tempfile.TemporaryDirectory() as top:
        for number, (name, way) in enumerate([("", moved), ("lock", removed), ("log.1", replaced), ("log.1", removed), ("registry.db", moved),
                                              ("registry.db", replaced)]):
            path = f"{top}/{number}"
            with serving("--data", path) as server:
                image = pushed(server.client())
                at = f"{path}/{name}" if name else path
                way(at)
                assert server.process.wait(timeout=30) == 9, (name, way.__name__, server.logged()[-1000:])
                assert f"{at} was removed, moved or replaced" in server.logged(), (at, server.logged()[-1000:])
            if way is moved:
                os.rename(f"{at}.moved", at)
                with serving("--data", path) as server:
                    assert pulled(server.client(), "acme/one", "v1") == (image, MANIFEST), name
                    by_signal(server)


def a_file_of_another_user():
    """A database that may only be read."""
    if os.getuid() != 0:
        print("folders: left out: a database that may only be read (it wants root)")
        return
    def as_nobody():
        os.setgroups([])
        os.setgid(NOBODY)
        os.setuid(NOBODY)
    with tempfile.TemporaryDirectory() as top:
        os.chmod(top, 0o755)
        programs = [shutil.copy(program, f"{top}/{number}") for number, program in enumerate([REGISTRYD, BLOBD])]
        path = f"{top}/data"
        with serving("--data", path) as server:
            pushed(server.client())
            by_signal(server)
        for name in [path, *(f"{path}/{name}" for name in os.listdir(path))]:
            os.chown(name, NOBODY, NOBODY)
        os.chmod(f"{path}/registry.db", 0o400)
        check(ended("--data", path, programs=programs, preexec_fn=as_nobody), 6, "registry.db", "ermission denied", "see to its rights")


def cached(path):
    """Returns the number of pages of a file that the system has cached, and of all its pages."""
    libc = ctypes.CDLL(None, use_errno=True)
    size = os.path.getsize(path)
    pages = -(-size // mmap.PAGESIZE)
    with open(path, "rb") as file:
        mapped = mmap.mmap(file.fileno(), size, access=mmap.ACCESS_COPY)
        found = (ctypes.c_ubyte * pages)()
        start = ctypes.addressof(ctypes.c_char.from_buffer(mapped))
        assert libc.mincore(ctypes.c_void_p(start), ctypes.c_size_t(size), found) == 0, os.strerror(ctypes.get_errno())
    return sum(page & 1 for page in found), pages


def the_cache_is_dropped_before_the_start():
    """A store that ends at once shows what the registry has dropped."""
    with folder() as path:
        with serving("--data", path) as server:
            for number in range(3):
                push_index(server.client(), "acme/one", index_of(number, 2_000_000))
            by_signal(server)
        first = log_of(path).paths[0]
        first.read_bytes()
        found, pages = cached(first)
        assert found == pages > 200, (found, pages)
        check(ended("--data", path, programs=(REGISTRYD, "/bin/false")), 1, "blobd ended")
        found, pages = cached(first)
        assert found < pages / 4, (found, pages)


def a_file_that_cannot_be_synced():
    """A sync that the registry makes before the store starts fails."""
    with folder() as path, tempfile.TemporaryDirectory() as room:
        with serving("--data", path) as server:
            image = pushed(server.client())
            by_signal(server)
        shim = build_shim(pathlib.Path(room))
        failing = {**os.environ, "LD_PRELOAD": str(shim), "CRASH_FAIL_SYNC": "1"}
        check(ended("--data", path, env=failing), 6, f"cannot sync: {path}/log.1: Input/output error", "see to its rights and its disk")
        with serving("--data", path) as server:
            assert pulled(server.client(), "acme/one", "v1") == (image, MANIFEST)
            by_signal(server)


def main():
    play("folders", [
        files_are_private, a_file_that_is_gone_ends_the_programs, a_file_of_another_user, the_cache_is_dropped_before_the_start,
        a_file_that_cannot_be_synced])


if __name__ == "__main__":
    main()
