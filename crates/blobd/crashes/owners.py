"""Two programs on one folder whose lock keeps neither out, as on a file system over a network that gives up the lock of a machine which is
cut off. Here the file `lock` is removed, so that the second program locks another one."""
import contextlib
import pathlib
import random
import re
import signal
import subprocess
import threading
import time

from contents import bytes_of, opens, uploads
from data_folder import PATIENCE, Ended, FolderLog, content_files
from frames import SWEEP, request
from model import Client, Fault
from room import all_there, clients, compares, contents_fit, ends_well, fault, looks, stops, together, wait_until

# How often a program is stopped at a random place while another one takes over.
ROUNDS = 12

# The longest time until a program notices that another one has taken over, in seconds: it looks once a second.
SOON = 10

# How a rewriting of the log ended, also one before another program took over, how far a slow start was, and a content that cannot be used.
PROGRESS = re.compile(r" was (not rewritten|not written|written): |^blobd: (surveying|examining|scanning|replaying) |^blobd: cannot (write|read|remove) \S+/contents/")


def begun(everybody, lines):
    """Lets each client make calls until its connection ends. Returns the threads."""
    threads = [threading.Thread(target=client.works, args=(line, "closes")) for client, line in zip(everybody, lines)]
    for client in everybody:
        client.loses = True
    for thread in threads:
        thread.start()
    return threads


def joined(everybody, threads, blobd):
    """Waits until the clients' connections to a program have ended."""
    end = time.monotonic() + PATIENCE
    for thread in threads:
        thread.join(max(0, end - time.monotonic()))
    if any(thread.is_alive() for thread in threads):
        raise Fault(f"a connection does not end: {blobd.waits()}")
    for client in everybody:
        client.loses = False
        if client.fault:
            raise Fault(client.fault)


def is_stopped(blobd):
    """Returns whether all threads of a program are stopped. A signal takes effect later than it is sent."""
    threads = pathlib.Path(f"/proc/{blobd.process.pid}/task").glob("*/stat")
    return all(path.read_text().rsplit(")", 1)[1].split()[0] == "T" for path in threads)


def owners_of(folder):
    """Returns the names of the owners' folders."""
    return sorted(path.name for path in folder.glob("owner-*"))


def loses(name, folder, blobd):
    """Checks how a program ends that another one has taken the folder from."""
    try:
        blobd.process.wait(PATIENCE)
    except subprocess.TimeoutExpired:
        raise Fault(f"{name} does not end: {blobd.waits()}") from None
    status, text = blobd.ends()
    lines = [line for line in text.splitlines() if not PROGRESS.search(line)]
    stops(name, (status, b"", "\n".join(lines) + "\n"), 7, f"another process has taken over {folder}")


def taken_over(room):
    """Tests a program that takes over while the clients of the first one work: the first one ends, and all that it has replied to is there."""
    for turn in range(ROUNDS // 2 * room.long):
        folder, everybody = room.fresh(), clients(room)
        first = room.starts(folder, connections=len(everybody))
        threads = begun(everybody, first.opens())
        time.sleep(room.rng.uniform(0.05, 0.6))
        (folder / "lock").unlink()
        second = room.starts(folder, connections=len(everybody))
        second.opens()
        joined(everybody, threads, first)
        loses(f"a program that was taken over, {turn}", folder, first)
        looks(everybody, second)
        together(everybody, second.connections, "closes", 100)
        ends_well("a program that took over", second)
        compares("the owners", len(owners_of(folder)), 1)
        all_there(room, folder, everybody)


def idle_owners(room):
    """Tests that a program of which nobody asks anything ends soon after another one has taken over, also one that never syncs."""
    for policy in ("closes", "never"):
        folder = room.fresh()
        first = room.starts(folder, "--sync", policy)
        first.opens()
        (folder / "lock").unlink()
        second = room.starts(folder, "--sync", policy)
        second.opens()
        begun = time.monotonic()
        loses(f"an idle program that was taken over, with --sync {policy}", folder, first)
        compares("whether it took more than the seconds that it may", time.monotonic() - begun > SOON, False)
        ends_well("a program that took over from an idle one", second)


def stopped_owners(room):
    """Tests a program that is stopped at any place, and goes on after another one has taken over and written. The first one replies to nothing
    any more, and nothing of the other one is lost: not by a late write, by a late file of the log, or by a late rewriting."""
    for turn in range(ROUNDS * room.long):
        # The two groups share no history, since neither program knows what the other one has made durable.
        folder, theirs, others = room.fresh(), clients(room)[:2], clients(room)[2:]
        everybody = theirs + others
        first = room.starts(folder, connections=len(theirs))
        threads = begun(theirs, first.opens())
        for _ in range(room.rng.randrange(3)):
            time.sleep(room.rng.uniform(0.05, 0.3))
            (folder / "rewrite").touch()  # closes a segment, and rewrites those that are closed
        time.sleep(room.rng.uniform(0.05, 1.2))
        first.process.send_signal(signal.SIGSTOP)
        (folder / "lock").unlink()
        second = room.starts(folder, connections=len(others))
        second.opens()
        together(others, second.connections, "closes", 60)
        (folder / "rewrite").touch()
        together(others, second.connections, "closes", 60)
        first.process.send_signal(signal.SIGCONT)
        together(others, second.connections, "closes", 60)
        joined(theirs, threads, first)
        loses(f"a program that was stopped, {turn}", folder, first)
        time.sleep(room.rng.uniform(0, 1.5))
        together(others, second.connections, "closes", 60)
        ends_well("a program that took over from a stopped one", second)
        if not FolderLog(folder).is_in_order():
            fault("the ids of a log that was taken over do not follow")
        all_there(room, folder, everybody)


def state_of(process):
    """Returns the letter of the state of a process: `T` if it is stopped."""
    return pathlib.Path(f"/proc/{process.pid}/stat").read_text().rsplit(")", 1)[1].split()[0]


def late_contents(room):
    """Tests a program that was stopped before it reads requests, and goes on after another one has taken over: it makes, changes and removes no file of
    a content, and replies to no change."""
    folder, client = room.fresh(), Client("t0", random.Random(1))
    first = room.starts(folder, "--sync", "each")
    (line,) = first.opens()
    uploads(client, line, [bytes_of(1, 40_000)])
    number = opens(client, line, bytes_of(2, 20_000))
    dropped = opens(client, line, bytes_of(3, 20_000))
    first.process.send_signal(signal.SIGSTOP)
    wait_until("a stopped program", lambda: is_stopped(first))
    steps = [client.state.appends(number, bytes_of(4, 10_000))]
    for make in (lambda state: state.abandons(dropped), lambda state: state.starts("t0/one"), lambda state: state.deletes(*list(state.links)[0])):
        steps.append(make(steps[-1].after))
    line.writes(b"".join(step.request for step in steps) + request(SWEEP) * 2)
    (folder / "lock").unlink()
    second = room.starts(folder, "--sync", "each")
    second.opens()
    before = content_files(folder)
    first.process.send_signal(signal.SIGCONT)
    replies = []
    with contextlib.suppress(Ended, TimeoutError):
        for step in steps:
            replies.append(line.hears() == step.reply)
    compares("the changes that a program replied to which was taken over", [reply for reply in replies if reply], [])
    loses("a program with late requests for contents", folder, first)
    compares("the files of contents after it", content_files(folder) == before, True)
    looks([client], second)
    contents_fit(folder, [client])
    ends_well("a program that took over from one with late requests", second)
    all_there(room, folder, [client])
