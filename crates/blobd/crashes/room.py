"""The rooms in which programs are tested, the clients of a test, and the checks."""
import collections
import hashlib
import random
import re
import shutil
import subprocess
import sys
import threading
import time

import data_folder
from data_folder import LONGEST, PATIENCE, Blobd, content_files
from frames import GREETING
from model import QUOTA, Client, Fault, History

NOBODY = 65534
TENANTS = ("t0", "t1", "t2", "t3")
SLOTS = 4096

# The longest time until a program that runs has removed the files of contents that nobody needs, in seconds.
SOON = 10

counts = {"kills": 0, "losses": 0, "bytes lost": 0, "calls": 0, "comparisons": 0, "faults": 0}


def fault(text):
    """Prints and counts a failed check."""
    print(f"crash_tests: {text}", file=sys.stderr, flush=True)
    counts["faults"] += 1


def compares(name, found, wanted):
    """Checks that two values are equal."""
    counts["comparisons"] += 1
    if found != wanted:
        fault(f"{name}: {str(found)[:300]}, and not {str(wanted)[:300]}")


def stops(name, found, status, *texts, lines=1):
    """Checks the status of a run that served nothing, and that its message has these texts."""
    compares(f"{name}, status and standard output", found[:2], (status, b""))
    compares(f"{name}, lines on standard error", (found[2].count("\n"), found[2][:7]), (lines, "blobd: "))
    missing = [str(text) for text in texts if not re.search(rf"(?<!\w){re.escape(str(text))}(?!\w)", found[2])]
    compares(f"{name}, what the message {found[2]!r} does not name", missing, [])


class Room:
    """Where a program is tested: a folder with a copy of the program, the library, the pipes, and the folders for data."""

    def __init__(self, program, path, long, earlier=None):
        path.chmod(0o755)
        self.path, self.long, self.earlier = path, long, earlier
        self.program = path / "blobd"
        shutil.copy(program, self.program)
        self.program.chmod(0o755)
        self.shim = data_folder.build_shim(path)
        self.kept = path / "kept"
        self.rng = random.Random(1)
        self.made = 0
        self.started = []
        self.segments = None  # the files and the states of a log of several files (segments.py)

    def fresh(self):
        """Returns the path of a new empty folder."""
        self.made += 1
        folder = self.path / f"data{self.made}"
        folder.mkdir()
        return folder

    def traced(self):
        """Returns settings under which the library notes the calls of the next program, and keeps the files that it removes."""
        (self.path / "trace").unlink(missing_ok=True)
        shutil.rmtree(self.kept, ignore_errors=True)
        self.kept.mkdir()
        return {"CRASH_TRACE": str(self.path / "trace"), "CRASH_KEEP": str(self.kept)}

    def command(self, folder, *options, slots=SLOTS, most=1 << 30, tenants=None, program=None):
        """Returns the words that start a program on a folder. A tenant has a quota, or the text of a quota and a share."""
        limits = tenants or {tenant: QUOTA for tenant in TENANTS}
        words = [f"{tenant}={limit}" for tenant, limit in limits.items()]
        return [program or self.program, "--data", folder, *options, str(slots), str(most), *words]

    def starts(self, folder, *options, connections=1, around=(), settings=None, **words):
        """Starts a program on a folder, with connections over named pipes. Settings are those of the library."""
        command = [*around, *self.command(folder, *options, **words)]
        pipes = self.path / f"pipes{len(self.started)}"
        pipes.mkdir(exist_ok=True)
        self.started.append(Blobd(command, pipes, connections, self.shim if settings else None, settings))
        return self.started[-1]

    def runs(self, folder, *options, given=GREETING, user=None, umask=-1, **words):
        """Runs a program with these bytes on standard input. Returns its status, its standard output and its standard error."""
        more = {"umask": umask, **({"user": user, "group": user, "extra_groups": []} if user else {})}
        command = self.command(folder, *options, **words)
        ended = subprocess.run(command, input=given, capture_output=True, timeout=PATIENCE, **more)
        return ended.returncode, ended.stdout, ended.stderr.decode(errors="replace")

    def last_words(self):
        """Returns the status and the standard error of the program that was started last."""
        return self.started[-1].ends()

    def clears(self):
        """Ends all programs, and removes the folders for data."""
        for blobd in self.started:
            if blobd.process.returncode is None:
                blobd.kills()
        self.started.clear()
        for folder in self.path.glob("data*"):
            shutil.rmtree(folder)


def clients(room, in_files=True):
    """Returns a client for each tenant. If not `in_files`, their contents are short: the log has their bytes."""
    history = History()
    return [Client(tenant, random.Random(room.rng.random()), history, in_files) for tenant in TENANTS]


def calls_of(everybody):
    """Returns the number of calls that the clients have made."""
    return sum(client.made for client in everybody)


def together(everybody, lines, promise, calls=None):
    """Lets each client make calls on a connection, in a thread of its own. Waits until all have ended."""
    before = calls_of(everybody)
    threads = [
        threading.Thread(target=client.works, args=(line, promise, calls)) for client, line in zip(everybody, lines)
    ]
    for thread in threads:
        thread.start()
    for thread in threads:
        thread.join()
    counts["calls"] += calls_of(everybody) - before
    for client in everybody:
        if client.fault:
            raise Fault(client.fault)


def looks(everybody, blobd):
    """Lets each client compare what is there with what may be there, and close a session of an earlier run."""
    for client in everybody:
        client.settles()
    for client, connection in zip(everybody, blobd.connections):
        counts["comparisons"] += client.looks(connection)
        client.finishes(connection, 1)


def wait_until(name, holds, patience=20):
    """Waits until something holds. Returns the seconds that it took."""
    begun = time.monotonic()
    while not holds():
        if time.monotonic() > begun + patience:
            raise Fault(f"{name} is not there after {patience} s")
        time.sleep(0.01)
    return time.monotonic() - begun


def ends_well(name, blobd):
    """Ends a program by closing its connections."""
    status, text = blobd.ends()
    if status != 0:
        fault(f"{name}: status {status}: {text}")


def sums(contents):
    """Returns how often there is each content, by its sum."""
    return collections.Counter(hashlib.sha256(data).hexdigest() for data in contents)


def begins(files, blobs):
    """Returns the files, each that begins with a blob's content without what follows: bytes of a chunk that failed may follow the content (docs/LOG.md)."""
    known = {len(data): data for data in blobs}
    shortened = []
    for data in files:
        fitting = [blob for length, blob in known.items() if length < len(data) and data[:length] == blob]
        shortened.append(data if sums([data]) <= sums(blobs) or not fitting else fitting[0])
    return shortened


def contents_wrong(folder, everybody):
    """Returns how the files of contents in a folder differ from what the clients have: a file for each open session that is longer than what
    a log has, under its name, and one for each such blob. A file of another open session may be there."""
    files, blobs, wrong = content_files(folder), {}, []
    for client in everybody:
        for number, (_, data) in client.state.sessions.items():
            name = f"contents/{client.tenant}/{number}"
            found = files.pop(name, None)
            if len(data) > LONGEST and found != data:
                wrong.append(f"{name}: {'no file' if found is None else f'{len(found)} bytes'}, and not its {len(data)} bytes")
        blobs.update({digest: data for (_, digest), data in client.state.links.items() if len(data) > LONGEST})
    found, wanted = sums(begins(files.values(), blobs.values())), sums(blobs.values())
    if found != wanted:
        names = [f"{name} ({len(data)} bytes)" for name, data in files.items() if hashlib.sha256(data).hexdigest() in found - wanted]
        wrong.append(f"{(wanted - found).total()} contents of {len(blobs)} have no file, and these files are none of theirs: {names}")
    return wrong


def contents_fit(folder, everybody):
    """Checks that the files of contents become those of the clients' contents, and no others. A program that runs removes the others soon."""
    end = time.monotonic() + SOON
    while (wrong := contents_wrong(folder, everybody)) and time.monotonic() < end:
        time.sleep(0.05)
    compares("the files of contents that are wrong", wrong, [])


def all_there(room, folder, everybody):
    """Starts a program after the last kill, compares what is there, and ends it."""
    blobd = room.starts(folder, connections=len(everybody))
    blobd.opens()
    looks(everybody, blobd)
    contents_fit(folder, everybody)
    ends_well("an end after a crash", blobd)


def all_there_still(room, folder, everybody):
    """Starts a program, compares what is there without a change, and ends it."""
    blobd = room.starts(folder, connections=len(everybody))
    for client, connection in zip(everybody, blobd.opens()):
        counts["comparisons"] += client.finds(connection)
    contents_fit(folder, everybody)
    ends_well("a program without a change", blobd)
