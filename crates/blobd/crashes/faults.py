"""Disks that fail, folders and programs in the way, signals, options, and memory."""
import os
import signal
import subprocess
import threading
import time

from data_folder import PATIENCE, Ended, Trace, base_in_the_way, log_length
from frames import GREETING
from kills import calls_of_start, lose_power
from logs import SmallLog
from model import MIB, Client
from room import NOBODY, all_there, clients, compares, contents_fit, counts, ends_well, fault, looks, stops, together

# The bound for the peak memory of a start from a log of 100 MiB, of which 3 MiB are live, and 40 MiB of contents in files.
MOST_MEMORY = 48 * MIB


def wrong_options(room):
    """Tests options that are wrong. Then nothing is made in the folder."""
    folder = room.fresh()
    for options in (
        ["--data"], ["--data", folder, "--sync"], ["--data", folder, "--sync", "often"], ["--sync", "each"],
        ["--data", folder, "--accept-loss-after", "x"], ["--data", folder, "--accept-loss-after", "-1"],
        ["--data", folder, "--data", folder], ["--data", folder, "--other"],
    ):
        ended = subprocess.run([room.program, *options, "4", "100", "acme=1"], input=GREETING, capture_output=True, timeout=PATIENCE)
        found = ended.returncode, ended.stdout, ended.stderr[:7]
        compares(f"the options {options}", found, (2, b"", b"usage: "))
    compares("a folder after wrong options", list(folder.iterdir()), [])


def failing(room, name, status, settings=None, around=(), lost=False, in_files=True):
    """Lets a disk fail while the clients work. The program must end with the status. All that was replied to is there after a restart,
    also if the kernel has dropped what was not synced. If not `in_files`, no content has a file."""
    folder, everybody = room.fresh(), clients(room, in_files)
    settings = {**room.traced(), **(settings or {})}
    # nobody uses the last connection, which must not keep the program from ending
    blobd = room.starts(folder, "--sync", "each", connections=len(everybody) + 1, around=around, settings=settings)
    lines = blobd.opens()
    timer = threading.Timer(PATIENCE, blobd.process.kill)
    timer.start()
    together(everybody, lines, "each")
    blobd.process.wait()
    timer.cancel()
    ended = blobd.ends()
    stops(name, (ended[0], b"", ended[1]), status, f"cannot write the log in {folder}")
    if lost:
        lose_power(room, folder, {})
    all_there(room, folder, everybody)


def failing_disks(room):
    """Tests calls on the log that fail after a start: each once, at several places."""
    calls = [call for _, call in enumerate(calls_of_start(room, room.fresh()))]
    first = sum(call == "sync" and name.startswith(("log", "base")) for call, name in calls)
    for number in (first + 1, first + 2, first + 35):
        for lost in (False, True):
            failing(room, f"a failed sync {number}", 9, {"CRASH_FAIL_SYNC": str(number)}, lost=lost)
        failing(room, f"a failed write {number}", 9, {"CRASH_FAIL_WRITE": str(number)})
    limited = ["env", "--ignore-signal=XFSZ", "prlimit"]
    for size in (40_000, 300_000):
        failing(room, f"a file of at most {size} bytes", 9, around=[*limited, f"--fsize={size}"], in_files=False)


def failing_reads(room):
    """Lets each of the first reads of a log fail. The message has the file and the system's error. Other threads read ahead of the replay, and a
    read of theirs that fails ends nothing."""
    small = SmallLog(room)
    failed = 0
    for number in range(1, 8):
        blobd = room.starts(small.folder, settings={"CRASH_FAIL_READ": str(number)}, tenants=small.tenants)
        try:
            blobd.opens()
        except Ended:
            pass
        status, text = blobd.ends()
        if status != 0 or number <= 2:
            stops(f"a failed read {number}", (status, b"", text), 6, f"{small.log}: Input/output error (os error 5)")
            failed += 1
    compares("whether a read of the replay failed too", failed > 2, True)


def full_disk(room):
    """Tests a disk without room for the log, if one can be mounted."""
    folder, everybody = room.fresh(), clients(room, False)
    if subprocess.run(["mount", "-t", "tmpfs", "-o", "size=1m", "tmpfs", folder], capture_output=True).returncode:
        print("crash_tests: a full disk is left out, since no file system can be mounted")
        return
    try:
        blobd = room.starts(folder, "--sync", "closes", connections=len(everybody))
        together(everybody, blobd.opens(), "closes")
        ended = blobd.ends()
        stops("a full disk", (ended[0], b"", ended[1]), 9, f"cannot write the log in {folder}")
        full = room.runs(folder)
        compares("the status of a start on a full disk", full[0] in (0, 9), True)
        subprocess.run(["mount", "-o", "remount,size=32m", folder], check=True)
        all_there(room, folder, everybody)
        subprocess.run(["mount", "-o", "remount,ro", folder], check=True)
        stops("a file system that is read-only", room.runs(folder), 6, folder)
    finally:
        subprocess.run(["umount", folder], check=True)


def folders(room):
    """Tests folders and logs that cannot be read, written or made."""
    user = NOBODY if os.getuid() == 0 else None
    file = room.fresh() / "file"
    file.write_bytes(b"")
    for name, path in {"a file for a folder": file, "a folder in a file": file / "folder"}.items():
        stops(name, room.runs(path), 6, path)
    closed, unread, unwritten, other = (room.fresh() for _ in range(4))
    closed.chmod(0o555)
    stops("a folder that may not be written", room.runs(closed, user=user), 6, closed)
    for folder, rights in ((unread, 0o000), (unwritten, 0o444)):
        compares("a first start", room.runs(folder)[:2], (0, GREETING))
        folder.chmod(0o777)
        (folder / "lock").chmod(0o666)
        for path in [*folder.glob("owner-*"), *folder.glob("contents"), *folder.glob("contents/*")]:
            path.chmod(0o777)
        (folder / "longest").chmod(0o666)
        (folder / "log.1").chmod(rights)
        stops(f"a log with the rights {rights:o}", room.runs(folder, user=user), 6, folder / "log.1")
    (other / "log.1").mkdir()
    stops("a folder for a log", room.runs(other), 6, other / "log.1")


def two_programs(room):
    """Tests two programs on one folder: the second ends after 5 s, or starts as soon as the first has ended."""
    folder, (client, *_) = room.fresh(), clients(room)
    first = room.starts(folder)
    (line,) = first.opens()
    begun = time.monotonic()
    stops("a second program", room.runs(folder), 7, folder)
    took = time.monotonic() - begun
    if not 4.5 < took < 15:
        fault(f"a second program ends after {took:.1f} s")
    together([client], [line], "closes", 100)
    second = room.starts(folder)
    time.sleep(0.5)
    begun = time.monotonic()
    first.kills()
    (line,) = second.opens()
    took = time.monotonic() - begun
    if took > 4:
        fault(f"a second program starts {took:.1f} s after the first has ended")
    looks([client], second)
    ends_well("a second program", second)


def signals(room):
    """Tests that SIGTERM and SIGINT are ignored if the program's parent ignored them, as registryd does. Else they kill."""
    folder, (client, *_) = room.fresh(), clients(room)
    blobd = room.starts(folder, around=["env", "--ignore-signal=TERM", "--ignore-signal=INT"])
    lines = blobd.opens()
    for number in (signal.SIGTERM, signal.SIGINT):
        blobd.process.send_signal(number)
        together([client], lines, "closes", 50)
    ends_well("a program with ignored signals", blobd)
    for number in (signal.SIGTERM, signal.SIGINT):
        blobd = room.starts(folder)
        lines = blobd.opens()
        looks([client], blobd)
        together([client], lines, "closes", 50)
        blobd.process.send_signal(number)
        compares("the status of a program that a signal kills", blobd.ends()[0], -number)
    all_there(room, folder, [client])


def syncs_of_writes(path):
    """Returns the number of syncs of a log in a trace, without the four that each new segment takes: two of its header, and two at the end
    of the one before."""
    trace = Trace(path)
    return len(trace.syncs()) - 4 * sum(call == ("rename", "log.new") for call in trace.calls)


def policies(room):
    """Tests how many syncs of the log each policy makes for 10 chunks and for a close, and that the chunks are in the content's file without a
    close."""
    for policy, chunks, closes in (("closes", 0, 1), ("each", 10, 1), ("never", 0, 0)):
        folder, trace = room.fresh(), room.path / "trace"
        client = Client("t0", room.rng)
        blobd = room.starts(folder, "--sync", policy, settings=room.traced())
        (line,) = blobd.opens()
        client.plays(line, client.state.starts("t0/one"))
        found = [syncs_of_writes(trace)]
        for _ in range(10):
            client.plays(line, client.state.appends(1, room.rng.randbytes(MIB // 2)), policy)
        found.append(syncs_of_writes(trace))
        compares(f"whether the chunks are in the file, with {policy}", (folder / "contents/t0/1").read_bytes() == client.state.sessions[1][1], True)
        client.plays(line, client.state.closes(1, b""))
        found.append(syncs_of_writes(trace))
        compares(f"the syncs with {policy}", [after - before for before, after in zip(found, found[1:])], [chunks, closes])
        ends_well("a program with a policy", blobd)


def memory(room):
    """Tests that a start keeps only what is live: 100 manifests of a MiB were stored, of which all but three were deleted at once, and 40
    contents of a MiB, which are in files."""
    folder, words = room.fresh(), {"slots": 50, "most": 2 * MIB}
    blobd = room.starts(folder, "--sync", "never", **words)
    (line,) = blobd.opens()
    (client, *_) = clients(room)
    # a folder in the way keeps the program from rewriting the log while it runs
    base_in_the_way(folder).mkdir()
    for number in range(40):
        client.plays(line, client.state.starts("t0/one"))
        client.plays(line, client.state.closes(number + 1, room.rng.randbytes(MIB)))
    digest = list(client.state.links)[0][1]
    for number in range(100):
        client.plays(line, client.state.puts_manifest("t0/one", [digest], room.rng.randbytes(MIB // 2).hex()))
        if number >= 3:
            client.plays(line, client.state.deletes_manifest(*list(client.state.manifests)[-1]))
    ends_well("a store with few slots", blobd)
    base_in_the_way(folder).rmdir()
    compares("a log that is long", log_length(folder) > 100 * MIB, True)
    begun = time.monotonic()
    blobd = room.starts(folder, **words)
    (line,) = blobd.opens()
    took, peak = time.monotonic() - begun, 1024 * blobd.peak()
    counts["comparisons"] += client.finds(line)
    contents_fit(folder, [client])
    ends_well("a start from a long log", blobd)
    if peak > MOST_MEMORY:
        fault(f"a start from a log of 100 MiB takes {peak // MIB} MiB")
    print(f"crash_tests: a log of 100 MiB with 3 live manifests, and 40 MiB of contents: {took:.1f} s, {peak // MIB} MiB")
