"""The files of contents: kills and losses of power at each call on them, disks that fail, bits that changed, files that are missing or short,
and files that no content has."""
import random
import re
import struct
import subprocess
import time

from data_folder import FNV_BASIS, LONGEST, Ended, Trace, content_files, data_files, log_files, log_sum, puts_data
from frames import DELETE, FETCH, GIVE_BACK, LEASE, LOCATE, MEMORY, NO_LEASE, READ, STATUS, SWEEP, UNREADABLE, UPLOAD_UNKNOWN
from kills import calls_of_start, lose_power
from model import MIB, Client, History
from room import all_there, compares, contents_fit, counts, ends_well, fault, stops, wait_until

# The seconds until a program that is to be killed at a call which it makes by itself is killed anyway.
LATE = 4

# The lengths of the chunks of a content whose pieces are damaged: the first one is in memory too. The third one has several pieces.
CHUNKS = 10_000, 7000, 2 * MIB + 5000, 300, MIB


def client_with(state, seed=1):
    """Returns a client that has found a state."""
    client = Client(state.tenant, random.Random(seed), History())
    client.state = state
    client.promises_all()
    return client


def uploads(client, line, chunks, repository="t0/one"):
    """Uploads a content in chunks. Returns the number of its session, and its digest."""
    number = client.state.following
    client.plays(line, client.state.starts(repository), "each")
    for chunk in chunks[:-1]:
        client.plays(line, client.state.appends(number, chunk), "each")
    client.plays(line, client.state.closes(number, chunks[-1]), "each")
    return number, list(client.state.links)[-1][1]


def opens(client, line, *chunks, repository="t0/two"):
    """Opens a session with chunks. Returns its number."""
    number = client.state.following
    client.plays(line, client.state.starts(repository), "each")
    for chunk in chunks:
        client.plays(line, client.state.appends(number, chunk), "each")
    return number


def bytes_of(seed, length):
    """Returns the same bytes for the same seed."""
    return random.Random(seed).randbytes(length)


class Chunks:
    """A session gets chunks: it is in memory, moves into a file, and grows there."""

    def before(self, client, line):
        uploads(client, line, [bytes_of(1, 40_000)])

    def act(self, client, line):
        opens(client, line, bytes_of(2, 10_000), bytes_of(3, LONGEST - 10_000), b"x", bytes_of(4, 30_000))

    def is_over(self, folder):
        return True


class Closes:
    """Sessions are closed: of a content in a file, with a last chunk and without one; of one in memory, which moves; and of a whole one."""

    def before(self, client, line):
        opens(client, line, bytes_of(1, 20_000))
        opens(client, line, bytes_of(2, 10_000))
        opens(client, line, bytes_of(3, 10_000), bytes_of(4, 10_000))

    def act(self, client, line):
        client.plays(line, client.state.closes(1, bytes_of(5, 5000)))
        client.plays(line, client.state.closes(2, bytes_of(6, 10_000)))
        client.plays(line, client.state.closes(3, b""))
        uploads(client, line, [bytes_of(7, 50_000)])

    def is_over(self, folder):
        return True


class PushesAgain:
    """A stored content is pushed again, and replaces the stored one."""

    def before(self, client, line):
        uploads(client, line, [bytes_of(1, 40_000)])
        uploads(client, line, [bytes_of(2, 10_000), bytes_of(3, 10_000)])

    def act(self, client, line):
        data = bytes_of(1, 40_000)
        uploads(client, line, [data[:20_000], data[20_000:]], "t0/two")
        uploads(client, line, [bytes_of(2, 10_000) + bytes_of(3, 10_000)], "t0/one")

    def is_over(self, folder):
        return len(content_files(folder)) == 2


class Removals:
    """A content is deleted and its slot freed, and sessions are abandoned."""

    def before(self, client, line):
        uploads(client, line, [bytes_of(1, 40_000)])
        opens(client, line, bytes_of(2, 30_000))
        opens(client, line, bytes_of(3, 10_000))
        uploads(client, line, [bytes_of(4, 20_000)])

    def act(self, client, line):
        client.plays(line, client.state.abandons(2))
        client.plays(line, client.state.deletes("t0/one", list(client.state.links)[0][1]))
        client.plays(line, client.state.abandons(3))
        for _ in range(2):
            line.calls(SWEEP)

    def is_over(self, folder):
        return len(content_files(folder)) == 1


class WrongCloses:
    """Closes with a wrong digest leave their sessions as they were, and these go on."""

    def before(self, client, line):
        opens(client, line, bytes_of(1, LONGEST))
        opens(client, line, bytes_of(2, 20_000))

    def act(self, client, line):
        for number in (1, 2):
            client.plays(line, client.state.closes_wrongly(number))
            client.plays(line, client.state.closes_wrongly(number))
            client.plays(line, client.state.appends(number, bytes_of(3, 1000)), "each")
            client.plays(line, client.state.closes_wrongly(number))
        # with a last chunk, whose write cuts what the failed close has written behind the content
        for number in (1, 2):
            client.plays(line, client.state.closes(number, bytes_of(8, 10)))

    def is_over(self, folder):
        return True


def acts(blobd, scenario, client):
    """Lets a client act. Returns whether the program replied to all."""
    try:
        (line,) = blobd.opens()
        scenario.act(client, line)
    except Ended:
        return False
    return True


def interrupted(room, scenario):
    """Kills a program after each call of a scenario, and often takes the power away then. Everything is there afterwards."""
    folder, client = room.fresh(), Client("t0", random.Random(1))
    blobd = room.starts(folder, "--sync", "each")
    (line,) = blobd.opens()
    scenario.before(client, line)
    ends_well("a folder with contents", blobd)
    files, state, name = data_files(folder), client.state, type(scenario).__name__
    blobd = room.starts(folder, "--sync", "each", settings=room.traced())
    blobd.opens()
    first = len(Trace(room.path / "trace").calls)
    scenario.act(client, blobd.connections[0])
    wait_until(f"the end of {name}", lambda: scenario.is_over(folder))
    blobd.kills()
    all_there(room, folder, [client])
    last = len(Trace(room.path / "trace").calls)
    steps = range(first + 1, last + 1)
    kinds = {call for call, _ in Trace(room.path / "trace").calls[first:]}
    for _ in range(room.long):
        for step in steps:
            puts_data(folder, files)
            client = client_with(state)
            blobd = room.starts(folder, "--sync", "each", settings={**room.traced(), "CRASH_KILL": str(step)})
            if acts(blobd, scenario, client):
                try:
                    blobd.process.wait(LATE)
                except subprocess.TimeoutExpired:
                    fault(f"{name}: no kill at call {step} of {last}")
            blobd.kills()
            counts["kills"] += 1
            if room.rng.random() < 0.7:
                lose_power(room, folder, files)
            all_there(room, folder, [client])
    return kinds


def interrupted_contents(room):
    """Tests kills and losses of power at each call by which contents are written, closed, replaced and removed."""
    kinds = set()
    for scenario in (Chunks(), Closes(), PushesAgain(), Removals(), WrongCloses()):
        kinds |= interrupted(room, scenario)
    compares("the kinds of calls", kinds, {"create", "write", "sync", "cut", "unlink"})


def interrupted_starts(room):
    """Kills starts after each of their calls, and takes the power away: first starts, and starts that find files which no content has, and files
    of open sessions that are longer than the log has it."""
    calls = calls_of_start(room, room.fresh())
    compares(f"the folders that a first start makes, in {calls}", [name for call, name in calls if call == "mkdir"][:2], ["contents", "contents/t0"])
    for step in range(1, len(calls) + 1):
        folder, client = room.fresh(), Client("t0", random.Random(1))
        dies_at(room, folder, step)
        lose_power(room, folder, {})
        all_there(room, folder, [client])
    folder, client = room.fresh(), Client("t0", random.Random(1))
    blobd = room.starts(folder, "--sync", "each")
    (line,) = blobd.opens()
    uploads(client, line, [bytes_of(1, 40_000)])
    opens(client, line, bytes_of(2, 20_000), bytes_of(3, 10_000))
    ends_well("a folder with contents", blobd)
    files, state = data_files(folder), client.state
    left = {f"contents/t0/{number}": bytes_of(number, 100) for number in (3, 4, 900)}
    torn = {"contents/t0/2": files["contents/t0/2"] + b"a chunk without a record"}
    puts_data(folder, {**files, **left, **torn})
    blobd = room.starts(folder, settings=room.traced())
    blobd.opens()
    wait_until("the removal of files", lambda: len(content_files(folder)) == 2)
    blobd.kills()
    for step in range(1, len(Trace(room.path / "trace").calls) + 1):
        puts_data(folder, {**files, **left, **torn})
        dies_at(room, folder, step)
        if room.rng.random() < 0.7:
            lose_power(room, folder, files)
        all_there(room, folder, [client_with(state)])


def dies_at(room, folder, step):
    """Starts a program that is killed after one of its calls."""
    blobd = room.starts(folder, settings={**room.traced(), "CRASH_KILL": str(step)})
    try:
        blobd.opens()
        blobd.process.wait(LATE)
    except (Ended, subprocess.TimeoutExpired):
        pass
    blobd.kills()
    counts["kills"] += 1


class Failing:
    """Calls on contents that fail while a file has their words."""

    def __init__(self, room):
        self.path = room.path / "failing"
        self.path.unlink(missing_ok=True)
        self.settings = {"CRASH_FAILING": str(self.path)}

    def fails(self, *words):
        self.path.write_text(" ".join(words))

    def works(self):
        self.path.unlink()


def refused(client, line, step, status):
    """Checks that a call fails with a status, and changes nothing."""
    found = line.asks(step.request)
    compares(f"the status of {step.request[:12]!r} on a disk that fails", int.from_bytes(found[:4], "little"), status)
    for number in client.state.sessions:
        (same,) = client.state.finds(("session", client.state.sessions[number][0], number))
        compares("the offset of a session after it", line.asks(same.request), same.reply)


def failing_contents(room):
    """Tests that a write or a sync of a content that fails is a failure of that call alone: the session goes on at its offset, the other connections go
    on, and the program too."""
    folder, failing = room.fresh(), Failing(room)
    everybody = [Client(tenant, random.Random(1)) for tenant in ("t0", "t1")]
    (client, other) = everybody
    blobd = room.starts(folder, "--sync", "each", connections=2, settings=failing.settings)
    line, second = blobd.opens()
    _, digest = uploads(client, line, [bytes_of(1, 60_000)])
    for words in (["create"], ["write"], ["sync"], ["create", "write", "sync"]):
        short = opens(client, line, bytes_of(2, 10_000))
        long = opens(client, line, bytes_of(3, 10_000), bytes_of(4, 10_000))
        failing.fails(*words)
        refused(client, line, client.state.appends(short, bytes_of(5, 50_000)), MEMORY)
        refused(client, line, client.state.closes(short, bytes_of(6, 10_000)), MEMORY)
        if words != ["create"]:
            refused(client, line, client.state.appends(long, bytes_of(7, 2 * MIB)), MEMORY)
            refused(client, line, client.state.closes(long, b"x"), MEMORY)
        # what needs no file goes on, on both connections
        client.plays(line, client.state.appends(short, b"short"), "each")
        for one, connection, repository in ((client, line, "t0/one"), (other, second, "t1/one")):
            uploads(one, connection, [bytes_of(8, 100), bytes_of(one.state.following, 1000)], repository)
        for step in client.state.fetches("t0/one", digest):
            client.plays(line, step)
        failing.works()
        client.plays(line, client.state.appends(short, bytes_of(5, 50_000)), "each")
        client.plays(line, client.state.appends(long, bytes_of(7, 50_000)), "each")
        client.plays(line, client.state.closes(long, b"x"))
        client.plays(line, client.state.closes(short, bytes_of(str(words), 10)))
        compares(f"contents after {words}", [client.finds(line) > 0, other.finds(second) > 0], [True, True])
    # a failed removal leaves the file until the next start
    failing.fails("unlink")
    client.plays(line, client.state.deletes("t0/one", digest))
    for _ in range(2):
        line.calls(SWEEP)
    uploads(client, line, [bytes_of(9, 30_000)])
    status, text = blobd.ends()
    compares("the status of a program whose contents failed", status, 0)
    compares("whether it told of each minute's first failure", [bool(re.search(r"^blobd: cannot write \S+/contents/t0/\d+ at byte \d+: ", text, re.M))], [True])
    failing.works()
    all_there(room, folder, everybody)


def failing_content_calls(room):
    """Lets each of the first syncs of and writes to contents fail while a client uploads. Each fails one call, and that call succeeds when it is made
    again."""
    for kind in ("CRASH_FAIL_CONTENT_SYNC", "CRASH_FAIL_CONTENT_WRITE"):
        for number in range(1, 8):
            folder, client, failed = room.fresh(), Client("t0", random.Random(1)), 0
            blobd = room.starts(folder, "--sync", "each", settings={**room.traced(), kind: str(number)})
            (line,) = blobd.opens()
            steps = [
                lambda: client.state.starts("t0/one"),
                lambda: client.state.appends(1, bytes_of(1, 10_000)),
                lambda: client.state.appends(1, bytes_of(2, 10_000)),
                lambda: client.state.appends(1, bytes_of(3, MIB + 10)),
                lambda: client.state.closes(1, bytes_of(4, 10)),
                lambda: client.state.starts("t0/one"),
                lambda: client.state.closes(2, bytes_of(5, 20_000)),
            ]
            for make in steps:
                step = make()
                found = line.asks(step.request)
                if int.from_bytes(found[:4], "little") == MEMORY:
                    failed += 1
                    found = line.asks(step.request)
                compares(f"the reply with {kind}={number}", found, step.reply)
                client.state = step.after
            client.promises_all()
            compares(f"the number of failures with {kind}={number}", failed <= 1, True)
            client.finds(line)
            blobd.kills()
            lose_power(room, folder, {})
            all_there(room, folder, [client])


def early_syncs(room):
    """Tests that a long chunk is synced by a thread too, while it is hashed, and a short one once."""
    folder, client = room.fresh(), Client("t0", random.Random(1))
    blobd = room.starts(folder, "--sync", "each", settings=room.traced())
    (line,) = blobd.opens()

    def syncs():
        return Trace(room.path / "trace").calls.count(("sync", "contents/t0/1"))

    opens(client, line, bytes_of(1, 20_000))
    compares("the syncs of a short chunk", syncs(), 1)
    client.plays(line, client.state.appends(1, bytes_of(2, 300_000)), "each")
    wait_until("both syncs of a long chunk", lambda: syncs() == 3)
    ends_well("a program with a long chunk", blobd)
    all_there(room, folder, [client])


def full_contents(room):
    """Tests a full disk, if one can be mounted: contents for which there is no room get `Memory`, and all else goes on."""
    folder, client = room.fresh(), Client("t0", random.Random(1))
    if subprocess.run(["mount", "-t", "tmpfs", "-o", "size=8m", "tmpfs", folder], capture_output=True).returncode:
        print("crash_tests: a disk full of contents is left out, since no file system can be mounted")
        return
    try:
        blobd = room.starts(folder, "--sync", "each")
        (line,) = blobd.opens()
        _, digest = uploads(client, line, [bytes_of(1, MIB)])
        number = opens(client, line, bytes_of(2, 100_000))
        for _ in range(20):
            step = client.state.appends(number, bytes_of(3, MIB))
            if int.from_bytes(line.asks(step.request)[:4], "little"):
                break
            client.state = step.after
        client.promises_all()
        refused(client, line, step, MEMORY)
        refused(client, line, client.state.closes(number, bytes_of(4, 2 * MIB)), MEMORY)
        uploads(client, line, [b"short"])
        client.plays(line, client.state.deletes("t0/one", digest))
        for _ in range(2):
            line.calls(SWEEP)
        wait_until("the removal of a content", lambda: not (folder / "contents/t0/1").exists())
        client.plays(line, client.state.closes(number, bytes_of(5, MIB // 2)))
        client.finds(line)
        ends_well("a program with a disk full of contents", blobd)
        all_there(room, folder, [client])
    finally:
        subprocess.run(["umount", folder], check=True)


def pieces_of(chunks):
    """Returns where the pieces of a content of chunks begin and end: each chunk is cut from its start."""
    found, place = [], 0
    for length in chunks:
        for start in range(0, length, MIB):
            found.append((place + start, place + min(length, start + MIB)))
        place += length
    return found


def reads_but(line, name, digest, data, damaged, is_missing=False):
    """Checks reads of a content by fetches and under a lease: those of damaged pieces fail, or have what is in memory; the others have the bytes. Returns
    whether one failed."""
    found = []
    lease = line.calls(LEASE, "t0/one", digest)
    for start, end in pieces_of(CHUNKS):
        for span in ((start, end - 1), (start, start), (end - 1, end - 1)):
            is_hit = any(span[0] < last and first <= span[1] for first, last in damaged)
            for reply in (
                line.calls(FETCH, "t0/one", digest, span=span), line.calls(READ, digest=digest, number=lease.second, span=span),
            ):
                is_right = (reply.status, reply.body) == (0, data[span[0]:span[1] + 1])
                is_refused = (reply.status, reply.body) == (UNREADABLE, b"")
                compares(f"{name}: a read of {span}, status {reply.status}", is_right or is_hit and is_refused, True)
                if is_hit and start >= LONGEST or is_missing and start >= LONGEST:
                    compares(f"{name}: a read of {span} fails, status {reply.status}", is_refused, True)
                found.append(is_refused)
    compares(f"{name}: the end of a lease", line.calls(GIVE_BACK, number=lease.second).status, 0)
    return any(found)


def flipped_bits(room):
    """Tests bits that change in the file of a content while it is served, in each kind of place: reads of that piece fail, all other reads do not, and
    the content is mended by pushing it again. So do starts from such a file."""
    folder, client = room.fresh(), Client("t0", random.Random(1))
    words = {"settings": {"CRASH_SYNC_MS": "0"}}
    blobd = room.starts(folder, "--sync", "each", **words)
    (line,) = blobd.opens()
    data = bytes_of(1, sum(CHUNKS))
    chunks = [data[sum(CHUNKS[:place]):sum(CHUNKS[:place + 1])] for place in range(len(CHUNKS))]
    number, digest = uploads(client, line, chunks)
    uploads(client, line, [bytes_of(2, 50_000)])
    pieces, failed = pieces_of(CHUNKS), 0
    places = sorted({place for start, end in pieces for place in (start, (start + end) // 2, end - 1)})
    for turn, place in enumerate(places):
        path = folder / f"contents/t0/{number}"
        with path.open("r+b") as file:
            file.seek(place)
            file.write(bytes([data[place] ^ (1 << turn % 8)]))
        if turn % 5 == 4:
            ends_well("a program with a flipped bit", blobd)
            blobd = room.starts(folder, "--sync", "each", **words)
            (line,) = blobd.opens()
        damaged = [piece for piece in pieces if piece[0] <= place < piece[1]]
        failed += reads_but(line, f"a flipped bit at {place}", digest, data, damaged)
        if turn % 3 == 0:
            number, _ = uploads(client, line, chunks, "t0/two")
        else:
            with path.open("r+b") as file:
                file.write(data)
        reads_but(line, f"after a flipped bit at {place}", digest, data, [])
    compares("whether reads fail of most places", failed >= len(places) - 4, True)
    client.finds(line)
    contents_fit(folder, [client])
    ends_well("a program with flipped bits", blobd)
    all_there(room, folder, [client])


def place_of(number, notes, span):
    """Returns the reply to a request for the place of bytes, by docs/PROTOCOL.md: of the content of tenant 1 that the session of this number received, whose
    pieces have these notes."""
    first, last = span or (0, 1 << 62)
    found = [(start, note) for (start, end), note in notes if start <= last and first < end]
    if not found:
        return 0, 0, 0, b""
    return 0, found[0][0], 1 << 32 | number, b"".join(note for _, note in found)


def locates(name, line, lease, number, digest, data):
    """Checks where the bytes of a leased content lie, of all and of ranges of all kinds."""
    notes = [((start, end), struct.pack("<QQ", end - start, log_sum(FNV_BASIS, data[start:end]))) for start, end in pieces_of(CHUNKS)]
    ends = sorted({place + more for piece, _ in notes for place in piece for more in (-1, 0, 1)} - {-1})
    for span in (None, *((first, last) for first in ends for last in (*ends, 1 << 62) if first <= last)):
        reply = line.calls(LOCATE, digest=digest, number=lease, span=span)
        found = reply.status, reply.first, reply.second, reply.body
        compares(f"{name}: the place of {span}", found == place_of(number, notes, span), True)


def located(room):
    """Tests where the bytes of leased contents lie: after an upload, after a start, after the file was damaged, and while the content is pushed again and
    deleted. The file of a lease stays until the lease ends."""
    folder, client = room.fresh(), Client("t1", random.Random(1))
    blobd = room.starts(folder, "--sync", "each")
    (line,) = blobd.opens()
    data = bytes_of(1, sum(CHUNKS))
    chunks = [data[sum(CHUNKS[:place]):sum(CHUNKS[:place + 1])] for place in range(len(CHUNKS))]
    _, short = uploads(client, line, [bytes_of(2, LONGEST)], "t1/one")
    number, digest = uploads(client, line, chunks, "t1/one")
    path = folder / f"contents/t1/{number}"
    lease = line.calls(LEASE, "t1/one", short).second
    compares("the place of a short content", line.calls(LOCATE, digest=short, number=lease)[:3], (0, 0, 0))
    compares("the place of bytes of another digest", line.calls(LOCATE, digest=digest, number=lease).status, NO_LEASE)
    lease = line.calls(LEASE, "t1/one", digest).second
    locates("after an upload", line, lease, number, digest, data)
    ends_well("a program with places", blobd)
    blobd = room.starts(folder, "--sync", "each")
    (line,) = blobd.opens()
    lease = line.calls(LEASE, "t1/one", digest).second
    locates("after a start", line, lease, number, digest, data)
    path.write_bytes(bytes(len(data)))
    locates("with a damaged file", line, lease, number, digest, data)
    path.write_bytes(data)
    again, _ = uploads(client, line, chunks, "t1/two")
    locates("a lease of a replaced content", line, lease, number, digest, data)
    fresh = line.calls(LEASE, "t1/two", digest).second
    locates("a lease of the content that replaced it", line, fresh, again, digest, data)
    for repository in ("t1/one", "t1/two"):
        client.plays(line, client.state.deletes(repository, digest), "each")
    compares("a sweep with leases", line.calls(SWEEP)[:3], (0, 0, 1))
    time.sleep(3)
    compares("the files of leases", sorted(content_files(folder)), sorted(f"contents/t1/{name}" for name in (number, again)))
    locates("a lease of a deleted content", line, lease, number, digest, data)
    compares("the end of a lease", line.calls(GIVE_BACK, number=lease).status, 0)
    wait_until("the file of the replaced content is gone", lambda: sorted(content_files(folder)) == [f"contents/t1/{again}"])
    compares("the end of the other lease", line.calls(GIVE_BACK, number=fresh).status, 0)
    compares("a place without a lease", line.calls(LOCATE, digest=digest, number=fresh).status, NO_LEASE)
    compares("a sweep without leases", line.calls(SWEEP)[:3], (0, 1, 0))
    wait_until("all files are gone", lambda: not content_files(folder))
    ends_well("a program without leases", blobd)


def damaged_files(room):
    """Tests files of contents that vanish or get shorter while they are served."""
    folder, client = room.fresh(), Client("t0", random.Random(1))
    blobd = room.starts(folder, "--sync", "each")
    (line,) = blobd.opens()
    data = bytes_of(1, sum(CHUNKS))
    chunks = [data[sum(CHUNKS[:place]):sum(CHUNKS[:place + 1])] for place in range(len(CHUNKS))]
    number, digest = uploads(client, line, chunks)
    for length in (len(data) - 1, 1_500_000, LONGEST, 0, None):
        path = folder / f"contents/t0/{number}"
        if length is None:
            path.unlink()
        else:
            path.write_bytes(data[:length])
        damaged = [piece for piece in pieces_of(CHUNKS) if piece[1] > (length or 0)]
        compares(f"whether reads fail of a file of {length} bytes", reads_but(line, f"a file of {length} bytes", digest, data, damaged), True)
        number, _ = uploads(client, line, chunks)
        reads_but(line, f"after a file of {length} bytes", digest, data, [])
    contents_fit(folder, [client])
    ends_well("a program with short files", blobd)
    all_there(room, folder, [client])


def missing_files(room):
    """Tests starts without the files of stored contents: they end with status 8 and name each. With the loss accepted, the rest is served, and a
    content is mended by pushing it again."""
    folder, client, other = room.fresh(), Client("t0", random.Random(1)), Client("t1", random.Random(2))
    blobd = room.starts(folder, "--sync", "each", connections=2)
    line, second = blobd.opens()
    first, lost = uploads(client, line, [bytes_of(1, 40_000)])
    client.plays(line, client.state.mounts("t0/two", lost, "t0/one"))
    again, twice = uploads(client, line, [bytes_of(2, 30_000)])
    uploads(client, line, [bytes_of(3, 20_000)])
    uploads(client, line, [b"a short one"])
    uploads(other, second, [bytes_of(4, 40_000)], "t1/one")
    uploads(other, second, [bytes_of(1, 40_000)[:20_000], bytes_of(1, 40_000)[20_000:]], "t1/one")
    opens(client, line, bytes_of(5, 30_000))
    ends_well("a folder with contents", blobd)
    # the content was pushed last by the other tenant
    contents_fit(folder, [client, other])
    files = data_files(folder)
    held = f"contents/t1/{other.state.following - 1}"
    compares("whether the last push has the file", files.get(held) == bytes_of(1, 40_000), True)
    without = {name: data for name, data in files.items() if name not in (held, f"contents/t0/{again}")}
    for turn in range(2):
        puts_data(folder, without)
        found = room.runs(folder)
        texts = f"{folder}/{held} is missing: {lost} of t0/one t0/two t1/one", f"{folder}/contents/t0/{again} is missing: {twice} of t0/one"
        stops(f"a start without files, {turn}", found, 8, *texts, f"{folder}/contents lacks the files of 2 contents", lines=3)
        compares(f"the files after it, {turn}", content_files(folder) == {name: data for name, data in without.items() if name.startswith("contents/")}, True)
    (folder / "accept-loss").write_bytes(b"")
    blobd = room.starts(folder, "--sync", "each", connections=2)
    line, second = blobd.opens()
    for repository, digest in list(client.state.links):
        for step in client.state.fetches(repository, digest):
            if digest in (lost, twice):
                compares("the status of a content without a file", int.from_bytes(line.asks(step.request)[:4], "little"), UNREADABLE)
            else:
                client.plays(line, step)
    client.plays(line, client.state.closes(max(client.state.sessions), b"the last bytes"))
    uploads(client, line, [bytes_of(1, 40_000)], "t0/two")
    uploads(client, line, [bytes_of(2, 30_000)], "t0/two")
    client.finds(line)
    other.finds(second)
    contents_fit(folder, [client, other])
    ends_well("a program that accepted a loss", blobd)
    all_there(room, folder, [client, other])


def damaged_uploads(room):
    """Tests starts whose open upload has lost its file or a part of it: they end with status 8. With the loss accepted, the upload is gone, and all
    else is there."""
    folder, client = room.fresh(), Client("t0", random.Random(1))
    blobd = room.starts(folder, "--sync", "each")
    (line,) = blobd.opens()
    uploads(client, line, [bytes_of(1, 40_000)])
    number = opens(client, line, bytes_of(2, 10_000), bytes_of(3, 20_000), bytes_of(4, MIB + 5000))
    sound = opens(client, line, bytes_of(5, 20_000))
    opens(client, line, bytes_of(6, 100))
    ends_well("a folder with uploads", blobd)
    files, state = data_files(folder), client.state
    name = f"contents/t0/{number}"
    data = files[name]
    flipped = {place: data[:place] + bytes([data[place] ^ 16]) + data[place + 1:] for place in (0, 9999, 10_000, 20_000, 30_000, len(data) - 1)}
    for title, wrong in {
        "without its file": None, "with an empty file": b"", "without its last byte": data[:-1], "without a piece": data[:30_000],
        **{f"with a flipped bit at {place}": found for place, found in flipped.items()},
    }.items():
        damaged = {**files, name: wrong} if wrong is not None else {one: found for one, found in files.items() if one != name}
        puts_data(folder, damaged)
        found = room.runs(folder)
        if found[0] == 0 and title in ("with a flipped bit at 0", "with a flipped bit at 9999"):
            fault(f"an upload {title}: a start does not notice it")
        stops(f"an upload {title}", found, 8, folder)
        compares(f"an upload {title}: the files after it", {**data_files(folder), **log_files(folder)}.keys(), damaged.keys())
        (folder / "accept-loss").write_bytes(b"")
        blobd = room.starts(folder, "--sync", "each")
        (line,) = blobd.opens()
        client = client_with(state)
        compares(f"an upload {title}: its status", line.calls(STATUS, "t0/two", number=number).status, UPLOAD_UNKNOWN)
        client.state = state.abandons(number).after
        client.promises_all()
        client.looks(line)
        client.plays(line, client.state.closes(sound, b"the last bytes"))
        contents_fit(folder, [client])
        status, text = blobd.ends()
        compares(f"an upload {title}, the status after the loss", status, 0)
        compares(f"an upload {title}, whether {text!r} names it", f"blobd: the upload {number} of t0 is lost: " in text, True)
        all_there(room, folder, [client])


def orphans(room):
    """Tests files that no content has: a start removes them and says how many. One with the number of a later session does not harm it. Files with other
    names stay."""
    folder, client = room.fresh(), Client("t0", random.Random(1))
    blobd = room.starts(folder, "--sync", "each")
    (line,) = blobd.opens()
    for number in range(4):
        client.plays(line, client.state.starts("t0/one"))
        client.plays(line, client.state.abandons(number + 1))
    uploads(client, line, [bytes_of(1, 40_000)])
    ends_well("a folder with a content", blobd)
    following = client.state.following
    for number in range(1, 5):
        (folder / f"contents/t0/{number}").write_bytes(bytes_of(number, 100_000))
    (folder / "contents/t1/7").write_bytes(b"")
    for number in range(following, following + 3):
        (folder / f"contents/t0/{number}").write_bytes(bytes_of(number, 100_000))
    others = {f"contents/t0/{name}": b"other" for name in ("007", "x", "1.new", "-1", "99999999999")} | {"contents/nobody/1": b"nobody"}
    for name, data in others.items():
        (folder / name).parent.mkdir(exist_ok=True)
        (folder / name).write_bytes(data)
    blobd = room.starts(folder, "--sync", "each")
    (line,) = blobd.opens()
    _, digest = uploads(client, line, [bytes_of(2, 10_000), bytes_of(3, 10_000)])
    opens(client, line, bytes_of(4, 20_000))
    opens(client, line, bytes_of(5, 100))
    client.finds(line)
    wait_until("the removal of files", lambda: not any((folder / f"contents/t0/{number}").exists() for number in range(1, 5)))
    compares("files with other names", {name: data for name, data in content_files(folder).items() if name in others}, others)
    status, text = blobd.ends()
    compares("the status of a program that removed files", status, 0)
    told = re.search(rf"^blobd: {re.escape(str(folder))}/contents: (\d+) files that the log does not name were removed$", text, re.M)
    compares(f"the number of files that were removed, in {text!r}", told and int(told[1]) in (4, 5, 7, 8), True)
    for name in others:
        (folder / name).unlink()
    all_there(room, folder, [client])
