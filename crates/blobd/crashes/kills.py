"""Restarts, kills, losses of power, and starts that rewrite the log."""
import re
import shutil
import signal
import threading
import time

import data_folder
from data_folder import HEADER, LONGEST, MARK, Ended, FolderLog, Trace, base_in_the_way, data_files, log_files, log_length, puts_data
from frames import FREE_SLOTS, GREETING, SWEEP
from model import MIB, Fault
from room import SLOTS, all_there, all_there_still, calls_of, clients, compares, counts, ends_well, fault, looks, together

# The number of kills and of losses of power of a program, and of rounds after which they begin with an empty folder.
ROUNDS, ROUNDS_OF_A_FOLDER = 20, 7

# The number of calls and of seconds before a kill, at most, and the share of kills while the program starts.
MOST_CALLS, MOST_TIME, EARLY = 600, 1, 0.2


def restarts(room):
    """Tests that everything is there after a restart, and that a restart alone only adds marks."""
    folder, everybody = room.fresh(), clients(room)
    for policy in ("closes", "each", "never"):
        blobd = room.starts(folder, "--sync", policy, connections=len(everybody))
        lines = blobd.opens()
        looks(everybody, blobd)
        together(everybody, lines, policy, 150)
        for client in everybody:
            # a clean end loses nothing
            client.promises_all()
        ends_well("an end", blobd)
    kinds = set().union(*(client.kinds for client in everybody))
    compares("the number of kinds of calls", len(kinds), 17)
    before = log_length(folder)
    for number in range(3):
        compares("a restart without a call", room.runs(folder)[:2], (0, GREETING))
        size = log_length(folder)
        if size - before > 2 * MARK:
            fault(f"a restart without a call adds {size - before} bytes to the log")
        before = size
    blobd = room.starts(folder, connections=len(everybody))
    lines = blobd.opens()
    looks(everybody, blobd)
    for client, line in zip(everybody, lines):
        client.finishes(line, len(client.state.sessions))
    lines[0].calls(SWEEP)
    digests = {digest for client in everybody for _, digest in client.state.links}
    compares("free slots", lines[0].calls(FREE_SLOTS).first, SLOTS - len(digests))
    ends_well("an end after a restart", blobd)


def kills_after(blobd, everybody, calls):
    """Kills a program after its clients have made about this number of calls, or after `MOST_TIME`."""
    last = calls_of(everybody) + calls
    end = time.monotonic() + MOST_TIME
    while calls_of(everybody) < last and time.monotonic() < end:
        time.sleep(0.0005)
    blobd.process.kill()


def interrupted(room, folder, everybody, policy, promise, shim=True, early=0.0):
    """Starts a program, compares what is there, and kills it while the clients work. Kills it while it starts with the probability
    `early`."""
    settings = {**room.traced(), "CRASH_SYNC_MS": str(room.rng.choice([0, 0, 2, 5]))} if shim else {}
    blobd = room.starts(folder, "--sync", policy, connections=len(everybody), settings=settings)
    if room.rng.random() < early:
        time.sleep(room.rng.uniform(0, 0.05))
        blobd.kills()
        return
    lines = blobd.opens()
    looks(everybody, blobd)
    killer = threading.Thread(target=kills_after, args=(blobd, everybody, room.rng.randint(0, MOST_CALLS)))
    killer.start()
    together(everybody, lines, promise)
    killer.join()
    compares("the status of a killed program", blobd.ends()[0], -signal.SIGKILL)


def in_folders(room, rounds):
    """Yields for each round a folder and its clients, and whether it is the folder's last round."""
    for number in range(rounds):
        if number % ROUNDS_OF_A_FOLDER == 0:
            folder, everybody = room.fresh(), clients(room)
        last = number == rounds - 1 or number % ROUNDS_OF_A_FOLDER == ROUNDS_OF_A_FOLDER - 1
        yield folder, everybody, last


def kills(room):
    """Kills the program again and again. What the kernel has is not lost, so with `never` all that was replied to is there."""
    for folder, everybody, last in in_folders(room, ROUNDS * room.long):
        policy, promise = room.rng.choice([("closes", "closes"), ("each", "each"), ("never", "each")])
        interrupted(room, folder, everybody, policy, promise, False, EARLY)
        counts["kills"] += 1
        if last:
            all_there(room, folder, everybody)
            shutil.rmtree(folder)


def common_length(one, other):
    """Returns the number of bytes with which both begin."""
    least, most = 0, min(len(one), len(other))
    while least < most:
        middle = (least + most + 1) // 2
        least, most = (middle, most) if one[:middle] == other[:middle] else (least, middle - 1)
    return least


def forgets_names(room, folder):
    """Takes back some of the renames and removals of files after which the folder was not synced, the last one first. Returns the lengths
    at their syncs of the files, by the names that they have then."""
    trace = Trace(room.path / "trace")
    syncs = trace.syncs_by_name()
    longest = folder / "longest"
    if ("rename", "longest.new") in trace.calls and longest.exists():
        compares("whether the length of the longest content was synced", max(syncs["longest"], default=0), longest.stat().st_size)
    for name, new in trace.unsure_names():
        moved = folder / new if new else room.kept / name
        if moved.exists() and room.rng.random() < 0.5:
            moved.rename(folder / name)
            syncs[name] = syncs.pop(new, [])
            replaced = room.kept / f"replaced-{new}"
            if new and replaced.exists():
                replaced.rename(folder / new)
                syncs[new] = syncs.pop(f"replaced-{new}", [])
    return syncs


def loses_end(room, path, synced, before):
    """Leaves of a file that is being written what a loss of power may leave. `before` are its bytes when the program started."""
    rng, written = room.rng, path.read_bytes()
    synced = min(synced, len(written))
    sure = max(synced, common_length(written, before))
    compares(f"frames of {path.name} that state too late a sync", [to for to in data_folder.stated_syncs(written) if to > sure], [])
    kept = rng.choice([synced, rng.randint(synced, len(written))])
    counts["bytes lost"] += len(written) - kept
    if synced:
        tails = b"", b"", bytes(len(written) - kept), bytes(rng.randint(1, 5000)), rng.randbytes(rng.randint(1, 5000))
        path.write_bytes(written[:kept] + rng.choice(tails))
    else:
        # the old bytes may be there instead of what was written, and after the place where the log was cut
        path.write_bytes(rng.choice([written, written[:kept] + before[kept:]]))


def reverts_name(room, step, folder):
    """Lets a name that was made or removed since the last sync of its folder be as before, or not. Returns whether it is."""
    call, name = step
    path, kept = folder / name, room.kept / name.replace("/", "%")
    if room.rng.random() < 0.5:
        return False
    if call == "mkdir":
        shutil.rmtree(path, ignore_errors=True)
    elif call == "create":
        path.unlink(missing_ok=True)
    elif kept.exists() and path.parent.exists():
        kept.rename(path)
    return True


def loses_contents(room, folder):
    """Leaves of the files of contents what a loss of power may leave: names that were not synced may be as before, and files end or are
    changed after the first byte that was written since their last sync."""
    rng = room.rng
    changed, steps = Trace(room.path / "trace").unsure_contents()
    sure = set()
    for step in reversed(steps):
        if step[1] not in sure and not reverts_name(room, step, folder):
            sure.add(step[1])
    for name, synced in changed.items():
        path = folder / name
        if not path.exists():
            continue
        written = path.read_bytes()
        kept = rng.choice([synced, rng.randint(synced, max(synced, len(written)))])
        rest = max(0, len(written) - kept)
        counts["bytes lost"] += rest
        tails = b"", bytes(rest), rng.randbytes(rest), bytes(rng.randint(1, 5000)), rng.randbytes(rng.randint(1, 5000))
        path.write_bytes(written[:kept] + rng.choice(tails))


def lose_power(room, folder, before):
    """Leaves of the log and of the files of contents what a loss of power may leave. `before` are the bytes of the log's files when the
    program started. All of these but the last segment and those that are being made must have been synced."""
    counts["losses"] += 1
    loses_contents(room, folder)
    synced = {name: max(lengths, default=0) for name, lengths in forgets_names(room, folder).items()}
    log = FolderLog(folder)
    written = [] if log.last == log.base else log.paths[-1:]
    for path in log.paths[:len(log.paths) - len(written)]:
        is_sure = synced.get(path.name, 0) >= path.stat().st_size or before.get(path.name) == path.read_bytes()
        compares(f"whether {path.name} was synced, of {[path.name for path in log.paths]}", is_sure, True)
    for path in [*written, folder / "log.new", folder / "base.new"]:
        if path.exists():
            loses_end(room, path, synced.get(path.name, 0), before.get(path.name, b""))


def losses(room):
    """Takes the power away again and again."""
    for folder, everybody, last in in_folders(room, ROUNDS * room.long):
        policy = room.rng.choice(["closes", "each"])
        before = log_files(folder)
        interrupted(room, folder, everybody, policy, policy, True, EARLY)
        lose_power(room, folder, before)
        if last:
            all_there(room, folder, everybody)
            shutil.rmtree(folder)


def finds_losses(room):
    """Tests that the clients miss what is lost if nothing is synced before a reply."""
    found = 0
    for _ in range(3):
        folder, everybody = room.fresh(), clients(room)
        interrupted(room, folder, everybody, "never", "each")
        lose_power(room, folder, {})
        try:
            all_there(room, folder, everybody)
        except Fault:
            found += 1
    compares("whether losses are found with `--sync never`", found > 0, True)


def in_order(found, wanted):
    """Returns whether some of the values found are those wanted, in this order."""
    rest = iter(found)
    return all(value in rest for value in wanted)


def ends_early(blobd):
    """Waits until a program has started, or was killed before."""
    try:
        blobd.opens()
    except Ended:
        pass


def calls_of_start(room, folder, settings=None):
    """Starts a program, and returns the calls on its log and its folder before the greeting."""
    blobd = room.starts(folder, settings={**room.traced(), **(settings or {})})
    ends_early(blobd)
    calls = Trace(room.path / "trace").calls
    blobd.kills()
    return calls


def first_starts(room):
    """Tests that a new log is synced before it gets its name, and its folder after that, before the greeting; and that a start after one
    that was killed before it synced the folder does so. Then tests starts after a first start that was interrupted, and from the log of
    an earlier version."""
    folder, other, killed = room.fresh() / "new", room.fresh(), room.fresh()
    calls = calls_of_start(room, folder)
    wanted = [("sync", "log.new"), ("rename", "log.new"), ("sync", str(folder))]
    compares(f"a sync of the folder of a new folder in {calls}", ("sync", str(folder.parent)) in calls, True)
    compares(f"the order of {calls}", in_order(calls, wanted), True)
    place = calls_of_start(room, other).index(wanted[1]) + 1
    compares("the last calls of a start that is killed", calls_of_start(room, killed, {"CRASH_KILL": str(place)})[-2:], wanted[:2])
    calls = calls_of_start(room, killed)
    compares(f"a sync of the folder in {calls}", ("sync", str(killed)) in calls, True)
    header = (folder / "log.1").read_bytes()[:HEADER]
    for left in (b"", header[:1], header[:31], header, bytes(HEADER), b"something else" * 10):
        folder = room.fresh()
        (folder / "log.new").write_bytes(left)
        (folder / "base.new").write_bytes(left)
        compares("a start after one that was interrupted", room.runs(folder)[:2], (0, GREETING))
        compares("the files after a start", sorted(log_files(folder)), ["log.1"])
    (folder / "log.new").write_bytes(header)
    before = (folder / "log.1").read_bytes()
    compares("a start with two logs", room.runs(folder)[:2], (0, GREETING))
    compares("the files after a start with two logs", sorted(log_files(folder)), ["log.1"])
    compares("the log itself", (folder / "log.1").read_bytes()[:len(before)], before)
    (folder / "log.1").rename(folder / "log")
    compares("a start from the log of an earlier version", room.runs(folder)[:2], (0, GREETING))
    compares("the files after it", sorted(log_files(folder)), ["log.1"])
    compares("that log", (folder / "log.1").read_bytes()[:len(before)], before)


def litter(room, folder, everybody):
    """Leaves a log of which less than half is live: contents that are there, sessions that are open, and deleted manifests of a MiB, also
    deleted contents. The last tenant keeps nothing but its next number. The program does not rewrite the log, since a folder is in the way."""
    blobd = room.starts(folder, "--sync", "never", connections=len(everybody))
    lines = blobd.opens()
    base_in_the_way(folder).mkdir()
    together(everybody, lines, "each", 100)
    for client, line in zip(everybody, lines):
        for length in (1000, 2 * LONGEST):
            client.plays(line, client.state.starts(f"{client.tenant}/one"))
            client.plays(line, client.state.appends(client.state.following - 1, room.rng.randbytes(length)))
    live = log_length(folder)
    client, line = everybody[0], lines[0]
    for _ in range(2 + 2 * live // MIB):
        client.plays(line, client.state.starts("t0/one"))
        client.plays(line, client.state.closes(client.state.following - 1, room.rng.randbytes(2 * LONGEST)))
        digest = list(client.state.links)[-1][1]
        client.plays(line, client.state.puts_manifest("t0/one", [digest], room.rng.randbytes(MIB // 2).hex()))
        client.plays(line, client.state.deletes_manifest(*list(client.state.manifests)[-1]))
        client.plays(line, client.state.deletes("t0/one", digest))
        line.calls(SWEEP)
    everybody[-1].empties(lines[-1])
    for client in everybody:
        client.promises_all()
    ends_well("a log with litter", blobd)
    base_in_the_way(folder).rmdir()


def rewriting(room):
    """Tests that a start makes a log shorter of which less than half is live, that all is there after it, and that the next start finds
    nothing to do."""
    folder, everybody = room.fresh(), clients(room)
    litter(room, folder, everybody)
    before, number = log_length(folder), int(FolderLog(folder).last.suffix[1:])
    status, out, text = room.runs(folder)
    after = log_length(folder)
    compares("a start that rewrites", (status, out), (0, GREETING))
    compares("a log that was rewritten is shorter", after < before / 2, True)
    told = re.search(rf"/base\.{number} was written: (\d+) of (\d+) bytes are left\n", text)
    compares(f"the lengths that a start tells which rewrites, {text!r}", told and int(told[2]), before)
    compares("the length of the base that it tells", told and int(told[1]), (folder / f"base.{number}").stat().st_size)
    files = sorted(log_files(folder))
    compares("the files that it leaves", files, [f"base.{number}", f"log.{number + 1}"])
    compares("whether their ids are in order", FolderLog(folder).is_in_order(), True)
    room.runs(folder)
    compares("the growth by another start", 0 <= log_length(folder) - after <= 2 * MARK, True)
    compares("the files after another start", sorted(log_files(folder)), files)
    blobd = room.starts(folder, connections=len(everybody))
    lines = blobd.opens()
    looks(everybody, blobd)
    for client, line in zip(everybody, lines):
        client.finishes(line, len(client.state.sessions))
    together(everybody, lines, "closes", 50)
    ends_well("a program after rewriting", blobd)
    all_there(room, folder, everybody)


def interrupted_rewriting(room):
    """Kills starts that rewrite, after each of their calls and at other times, and takes the power away from them. Everything is there
    afterwards."""
    folder, everybody = room.fresh(), clients(room)
    litter(room, folder, everybody)
    before = data_files(folder)
    begun = time.monotonic()
    calls = calls_of_start(room, folder)
    took = time.monotonic() - begun
    removals = [place for place, (call, _) in enumerate(calls, 1) if call == "unlink"]
    steps = [place for place in range(1, len(calls) + 1) if place not in removals[2:-1]]
    for step in steps + [0] * (ROUNDS * room.long // 4):
        puts_data(folder, before)
        blobd = room.starts(folder, settings={**room.traced(), "CRASH_KILL": str(step), "CRASH_SYNC_MS": "0" if step else "5"})
        if step:
            ends_early(blobd)
        else:
            time.sleep(room.rng.uniform(0, took))
        blobd.kills()
        counts["kills"] += 1
        if room.rng.random() < 0.7:
            lose_power(room, folder, before)
        all_there_still(room, folder, everybody)
        log = FolderLog(folder)
        compares("the files of a log, and no others", sorted(log_files(folder)), sorted(path.name for path in log.paths))


def rewriting_without_room(room):
    """Tests that a start whose disk fails while it rewrites goes on with the old log, or ends. Everything is there afterwards."""
    folder, everybody = room.fresh(), clients(room)
    litter(room, folder, everybody)
    files = data_files(folder)
    for kind in ("CRASH_FAIL_WRITE", "CRASH_FAIL_SYNC"):
        for number in range(1, 6):
            puts_data(folder, files)
            blobd = room.starts(folder, connections=len(everybody), settings={kind: str(number)})
            try:
                for client, connection in zip(everybody, blobd.opens()):
                    counts["comparisons"] += client.finds(connection)
            except Ended:
                pass
            status, text = blobd.ends()
            compares(f"the status of a start with {kind}={number}, {text!r}", status in (0, 6, 9), True)
            all_there_still(room, folder, everybody)


def unfinished_replacements(room):
    """Lets the sync of the folder, or the removal of a file, fail while a start puts a base in place of the log's files. If such a start
    went on with the old files, all that it acknowledges would be lost."""
    for kind, most in (("CRASH_FAIL_FOLDER_SYNC", 5), ("CRASH_FAIL_REMOVE", 2)):
        for number in range(1, most + 1):
            folder, everybody = room.fresh(), clients(room)
            litter(room, folder, everybody)
            blobd = room.starts(folder, connections=len(everybody), settings={kind: str(number)})
            try:
                together(everybody, blobd.opens(), "closes", 20)
            except Ended:
                pass
            status, text = blobd.ends()
            compares(f"the status of a start with {kind}={number}, {text!r}", status in (0, 6), True)
            all_there(room, folder, everybody)
            shutil.rmtree(folder)
