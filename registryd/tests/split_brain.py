#!/usr/bin/env python3
"""Tests two registries on one folder whose lock keeps neither out, as on a file system over a network that gives up the lock of a machine which is
cut off. The second one has another file mounted in place of `lock`, which the first one does not see.

The first one has to end with status 7, and all that either has acknowledged has to be there, also if the first one was stopped at any place and
goes on after the second one has taken over. It needs root and runs in mounts of its own. It ends with status 3 if it cannot mount."""
import contextlib, os, random, signal, tempfile, time

import server
from mounts import in_own_mounts
from playing import play
from pushing import Raw
from restarts import folder
from server import Client, serving

ROUNDS = int(os.environ.get("ROUNDS", 6))
TAKEN_OVER = "another process has taken over"

# Starts a program that sees another file in place of a lock.
WRAPPER = """#!/bin/sh
exec unshare --mount --propagation private sh -c 'mount --bind "$OTHER_LOCK" "$LOCK" && exec "$PROGRAM" "$@"' sh "$@"
"""


@contextlib.contextmanager
def serving_too(path):
    """Starts a registry on a folder that another one has. Its program and its store do not see the other's lock."""
    with tempfile.TemporaryDirectory() as room:
        wrapper, program = f"{room}/registryd", server.REGISTRYD
        with open(wrapper, "w", encoding="utf-8") as file:
            file.write(WRAPPER)
        os.chmod(wrapper, 0o755)
        open(f"{room}/lock", "w", encoding="utf-8").close()
        around = {**os.environ, "OTHER_LOCK": f"{room}/lock", "LOCK": f"{path}/lock", "PROGRAM": program}
        server.REGISTRYD = wrapper
        try:
            started = server.Server("--data", path, env=around)
        finally:
            server.REGISTRYD = program
        try:
            yield started
        finally:
            if started.process.poll() is None:
                started.process.kill()
                started.process.wait()


def check_lost(first):
    """Checks that a registry ends because another one has taken over."""
    status = first.process.wait(timeout=60)
    assert status == 7 and TAKEN_OVER in first.logged(), (status, first.logged()[-1500:])


def check_all(address, pushers):
    """Checks that all that was acknowledged is there. Returns the number of tags."""
    for pusher in pushers:
        pusher.check(Client(address), dict(pusher.pushed))
    return sum(len(pusher.pushed) for pusher in pushers)


def stop(pushers):
    for pusher in pushers:
        pusher.is_stopped.set()
    for pusher in pushers:
        pusher.stop()


def check_next_start(path, pushers):
    """Checks that a start finds no damage, and all that was acknowledged."""
    with serving("--data", path) as third:
        tags = check_all(third.address, pushers)
        assert "was cut at byte" not in third.logged() or "is damaged" not in third.logged(), third.logged()[-1500:]
        assert third.end() == 0, third.logged()[-1000:]
    return tags


def under_pushes():
    """The second registry starts while clients push to the first one."""
    for number in range(ROUNDS):
        with folder() as path, serving("--data", path) as first:
            before = [Raw(first.address, f"acme/before-{name}", pause=0) for name in range(3)]
            for pusher in before:
                pusher.wait_for(3)
            time.sleep(random.Random(number).random() / 2)
            with serving_too(path) as second:
                check_lost(first)
                stop(before)
                check_all(second.address, before)
                after = [Raw(second.address, f"acme/after-{name}", pause=0) for name in range(2)]
                for pusher in after:
                    pusher.wait_for(5)
                stop(after)
                assert second.end() == 0, second.logged()[-1500:]
            check_next_start(path, before + after)


def while_idle():
    """The second registry starts while nobody asks the first one, which ends by itself."""
    with folder() as path, serving("--data", path) as first:
        before = Raw(first.address, "acme/before", pause=0)
        before.wait_for(5)
        before.stop()
        with serving_too(path) as second:
            begun = time.time()
            check_lost(first)
            assert time.time() - begun < 10, time.time() - begun
            check_all(second.address, [before])
            assert second.end() == 0, second.logged()[-1500:]
        check_next_start(path, [before])


def stopped(server, number):
    """Sends a signal to a registry and its store."""
    for process in (server.process.pid, server.child()):
        os.kill(process, number)


def after_a_stop():
    """The first registry is stopped at any place under pushes. The second one starts and gets pushes. Then the first one goes on."""
    taken = 0
    for number in range(2 * ROUNDS):
        chosen = random.Random(number)
        with folder() as path, serving("--data", path) as first:
            before = [Raw(first.address, f"acme/before-{name}", pause=0) for name in range(3)]
            for pusher in before:
                pusher.wait_for(3)
            time.sleep(chosen.random())
            stopped(first, signal.SIGSTOP)
            acknowledged = [dict(pusher.pushed) for pusher in before]
            try:
                with serving_too(path) as second:
                    taken += 1
                    after = [Raw(second.address, f"acme/after-{name}", pause=0) for name in range(2)]
                    for pusher in after:
                        pusher.wait_for(5)
                    stopped(first, signal.SIGCONT)
                    check_lost(first)
                    stop(before)
                    for pusher in after:
                        pusher.wait_for(5)
                    stop(after)
                    # A request that was confirmed before the stop may be replied to after it. Its tag is there.
                    late = sum(len(pusher.pushed) for pusher in before) - sum(map(len, acknowledged))
                    assert late <= 2 * len(before), late
                    check_all(second.address, before + after)
                    assert second.end() == 0, second.logged()[-1500:]
            except AssertionError as error:
                # SQLite locks the database during a transaction. The second registry cannot start then, on one machine.
                if "database is locked" not in str(error):
                    raise
                stopped(first, signal.SIGCONT)
                stop(before)
                after = []
                assert first.end() == 0, first.logged()[-1500:]
            check_next_start(path, before + after)
    assert taken > 0, "no round had a second registry"


def main():
    in_own_mounts(())
    play("split_brain.py", [while_idle, under_pushes, after_a_stop])


if __name__ == "__main__":
    main()
