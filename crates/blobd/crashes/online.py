"""Logs that are rewritten while their store is served."""
import re
import threading
import time

from data_folder import PATIENCE, Ended, FolderLog, Trace, data_files, log_files, log_length, puts_data
from frames import ABANDON, CLOSE, DELETE, DELETE_MANIFEST, GREETING, PUT_MANIFEST, START, STAT, SWEEP, sha256
from kills import lose_power
from model import MIB, Fault
from room import all_there, all_there_still, clients, compares, counts, ends_well, fault, looks, wait_until
from segments import pushes, puts_long_manifest

# The lengths of the contents and of the manifests that are deleted, and the seconds of a round.
CONTENT, MANIFEST, ROUND = 50_000, 150_000, 3

# The number of small blobs in the log whose rewriting is measured, and the longest time that a command may take then, in seconds.
SMALL, LONGEST = 1500, 1


def churns(client, line, end):
    """Uploads contents with long manifests, and deletes most of them at once, until a time or the end of the connection. Makes random calls
    between. Keeps the first fault."""
    repository = f"{client.tenant}/one"
    try:
        while time.monotonic() < end:
            client.plays(line, client.state.starts(repository))
            client.plays(line, client.state.closes(client.state.following - 1, client.rng.randbytes(CONTENT)))
            digest = list(client.state.links)[-1][1]
            puts_long_manifest(client, line, repository, digest, MANIFEST)
            client.plays(line, client.state.deletes_manifest(*list(client.state.manifests)[-1]))
            if client.rng.random() < 0.95:
                client.plays(line, client.state.deletes(repository, digest))
                line.calls(SWEEP)
            client.some_calls(line, "closes")
            client.made += 6
    except Ended:
        pass
    except (Fault, OSError) as error:
        client.fault = str(error)


class Measured:
    """Small commands on a connection of their own, until they are stopped, and the longest time of one of them."""

    def __init__(self, line, tenant):
        self.line, self.repository = line, f"{tenant}/small"
        self.times, self.is_over = [], False
        self.thread = threading.Thread(target=self.works)
        self.thread.start()

    def works(self):
        try:
            while not self.is_over:
                begun = time.monotonic()
                number = self.line.calls(START, self.repository).first
                middle = time.monotonic()
                self.line.calls(ABANDON, self.repository, number=number)
                self.times += [middle - begun, time.monotonic() - middle]
                time.sleep(0.001)
        except Ended:
            pass

    def ends(self):
        """Stops. Returns the longest time, in seconds."""
        self.is_over = True
        self.thread.join()
        return max(self.times)


def churned(folder, everybody, blobd, end):
    """Lets the clients churn until a time. Returns how often the log was seen to get a new base and to be shorter than before."""
    threads = [
        threading.Thread(target=churns, args=(client, line, end)) for client, line in zip(everybody, blobd.connections)
    ]
    before = sum(client.made for client in everybody)
    for thread in threads:
        thread.start()
    seen = []
    while any(thread.is_alive() for thread in threads):
        try:
            log = FolderLog(folder)
            seen.append((log.base, log.length()))
        except FileNotFoundError:
            pass  # a file was removed after its name was read
        time.sleep(0.02)
    counts["calls"] += sum(client.made for client in everybody) - before
    for client in everybody:
        if client.fault:
            raise Fault(client.fault)
    return sum(base != after and length > left for (base, length), (after, left) in zip(seen, seen[1:]))


def online(room):
    """Tests that a program rewrites its log while clients push and delete contents, and that all is there after its end, after a kill and
    after a loss of power."""
    folder, everybody = room.fresh(), clients(room)
    shrunk = 0
    for crash in ("none", "kill", "loss", "loss") * room.long:
        before = log_files(folder)
        blobd = room.starts(folder, connections=len(everybody), settings=room.traced())
        blobd.opens()
        looks(everybody, blobd)
        timer = threading.Timer(ROUND + room.rng.uniform(-0.5, 0.5), blobd.process.kill if crash != "none" else lambda: None)
        timer.start()
        shrunk += churned(folder, everybody, blobd, time.monotonic() + (ROUND if crash == "none" else 10 * ROUND))
        timer.join()
        if crash == "none":
            for client in everybody:
                client.promises_all()
            ends_well("a program that rewrites its log", blobd)
        else:
            blobd.ends()
            counts["kills"] += 1
        if crash == "loss":
            lose_power(room, folder, before)
        all_there(room, folder, everybody)
        log = FolderLog(folder)
        compares("whether the ids are in order", log.is_in_order(), True)
        compares("the files of a log, and no others", sorted(log_files(folder)), sorted(path.name for path in log.paths))
    compares("whether the log got shorter while its store was served", shrunk > 0, True)


def requests(room):
    """Tests that a log is rewritten at the operator's request, and how long small commands take meanwhile."""
    folder = room.fresh()
    tenants = {"t0": 1 << 40, "t1": 1 << 40}
    blobd = room.starts(folder, "--sync", "never", connections=2, tenants=tenants)
    line, other = blobd.opens()
    request = folder / "rewrite"
    request.write_bytes(b"")
    wait_until("the removal of a request", lambda: not request.exists())
    time.sleep(3.5)  # It waits for a change at two looks.
    compares("the files after a request without a closed segment", sorted(log_files(folder)), ["log.1"])
    kept = small_blobs(line, SMALL)
    closes_segment(line)
    before = log_length(folder)
    measured = Measured(other, "t1")
    time.sleep(0.3)
    request.write_bytes(b"")
    took = wait_until("a base", lambda: FolderLog(folder).base)
    wait_until("the removal of the files that a base replaced", lambda: len(log_files(folder)) == 2)
    compares("whether a request that was obeyed is there", request.exists(), False)
    time.sleep(0.1)
    longest = measured.ends()
    if longest > LONGEST:
        fault(f"a small command takes {longest:.3f} s while the log is rewritten")
    compares("a log that was rewritten is shorter", log_length(folder) < before, True)
    status, text = blobd.ends()
    told = re.search(r"/base\.\d+ was written: (\d+) of (\d+) bytes are left\n", text)
    compares(f"the end of a program that told of a base, {text!r}", (status, bool(told)), (0, True))
    base = FolderLog(folder).base
    compares("the length that it told", told and int(told[1]), base.stat().st_size)
    blobd = room.starts(folder, tenants=tenants)
    (line,) = blobd.opens()
    found = [digest for digest in kept if line.calls(STAT, "t0/one", digest).status]
    compares("the small blobs that are missing after a start", found, [])
    ends_well("a program after a request", blobd)
    count = len(measured.times)
    print(f"crash_tests: a request was obeyed after {took:.1f} s; the longest of {count} commands meanwhile: {1000 * longest:.1f} ms")


def permissions(room):
    """Tests that a folder and its files are its user's alone, whatever the umask lets others do."""
    folder = room.fresh() / "own"
    compares("a first start", room.runs(folder, umask=0)[:2], (0, GREETING))
    blobd = room.starts(folder, around=["sh", "-c", 'umask 0; exec "$@"', "sh"])
    (line,) = blobd.opens()
    data = bytes(CONTENT)
    line.calls(CLOSE, "t0/one", sha256(data), number=line.calls(START, "t0/one").first, body=data)
    closes_segment(line)
    (folder / "rewrite").write_bytes(b"")
    wait_until("a base", lambda: FolderLog(folder).base)
    ends_well("a program in a folder of its own", blobd)
    paths = [folder, *folder.rglob("*")]
    found = {str(path): oct(path.stat().st_mode & 0o777) for path in paths}
    of_folders = {str(path) for path in paths if path.is_dir()}
    compares("the permissions", found, {name: "0o700" if name in of_folders else "0o600" for name in found})
    compares("the number of owners", len(list(folder.glob("owner-*"))), 1)
    names = {path.relative_to(folder).parts[0] for path in paths[1:]}
    compares("whether contents and the length of the longest in the log are among the files", {"contents", "longest"} <= names, True)
    compares("whether a base is among the files", any(name.startswith("base.") for name in names), True)
    compares("whether a content has a file", any(path.match("contents/t0/*") for path in paths), True)


def asks_and_changes(folder, line):
    """Asks for a rewriting. Makes a change after the program has seen that, and then waits until the program has looked again."""
    request = folder / "rewrite"
    request.write_bytes(b"")
    wait_until("the removal of a request", lambda: not request.exists())
    time.sleep(0.2)
    line.calls(ABANDON, "t0/one", number=line.calls(START, "t0/one").first)
    time.sleep(2.5)


def limited_requests(room):
    """Tests that a request closes the last segment, and that a rewriting which needs more room than it may take does not begin."""
    folder = room.fresh()
    blobd = room.starts(folder)
    (line,) = blobd.opens()
    kept, limit = small_blobs(line, 10), folder / "room"
    for number, text in enumerate(("0", "x", "00000000000000000100", ""), 2):
        limit.write_text(text)
        asks_and_changes(folder, line)
        compares(f"the files with room for {text!r}", sorted(log_files(folder)), [f"log.{name + 1}" for name in range(number)])
    limit.write_text("1000000\n")
    asks_and_changes(folder, line)
    compares("the files with room for a base", sorted(log_files(folder)), ["base.5", "log.6"])
    compares("whether the records of deleted blobs are left", log_length(folder) < 4000, True)
    status, text = blobd.ends()
    needs = re.findall(r" was not rewritten: it needs \d{4} bytes on the disk, and may take (\d+)\n", text)
    compares("the end, and what the program may take by what it says", (status, needs), (0, ["0", "0", "100", "0"]))
    blobd = room.starts(folder)
    (line,) = blobd.opens()
    compares("the small blobs that are missing", [digest for digest in kept if line.calls(STAT, "t0/one", digest).status], [])
    ends_well("a program after limited requests", blobd)


def interrupted_requests(room):
    """Kills the program after each of the calls by which it rewrites its log at a request, and takes the power away then."""
    folder, (client, *_) = room.fresh(), clients(room)
    blobd = room.starts(folder)
    (line,) = blobd.opens()
    pushes(client, line, 4)
    ends_well("a log of two segments", blobd)
    client.promises_all()
    files, request, trace = data_files(folder), folder / "rewrite", room.path / "trace"
    request.write_bytes(b"")
    blobd = room.starts(folder, settings=room.traced())
    blobd.opens()
    wait_until("the removal of a file that a base replaced", lambda: Trace(trace).calls[-1][0] == "unlink")
    blobd.kills()
    calls = Trace(trace).calls
    for step in range(calls.index(("sync", "base.new")) + 1, len(calls) + 1):
        puts_data(folder, files)
        request.write_bytes(b"")
        blobd = room.starts(folder, settings={**room.traced(), "CRASH_KILL": str(step)})
        blobd.opens()
        blobd.process.wait(PATIENCE)
        compares(f"the calls of a program that is killed after {step}", Trace(trace).calls, calls[:step])
        blobd.kills()
        counts["kills"] += 1
        lose_power(room, folder, files)
        all_there_still(room, folder, [client])
        compares("the files of a log, and no others", sorted(log_files(folder)), sorted(path.name for path in FolderLog(folder).paths))


def small_blobs(line, count):
    """Uploads small blobs, and deletes every second one. Returns the digests of the others."""
    kept = []
    for index in range(count):
        data = b"a small content, number %d" % index
        number = line.calls(START, "t0/one").first
        line.calls(CLOSE, "t0/one", sha256(data), number=number, body=data)
        if index % 2:
            line.calls(DELETE, "t0/one", sha256(data))
        else:
            kept.append(sha256(data))
    return kept


def closes_segment(line):
    """Makes the last segment so long that the next one begins, by manifests that are deleted at once."""
    for note in ("a", "b"):
        text = b'{"schemaVersion":2,"manifests":[],"annotations":{"note":"%s"}}' % (note.encode() * MIB)
        found = line.calls(PUT_MANIFEST, "t0/two", body=text)
        compares("the status of a long manifest", found.status, 0)
        line.calls(DELETE_MANIFEST, "t0/two", sha256(text))
