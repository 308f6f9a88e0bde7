"""Logs that are damaged, cut off, framed otherwise or strange, and other settings."""
import struct

import data_folder
from data_folder import HEADER, LONGEST, MARK, LogReading, content_files, data_files, log_length, puts_data
from frames import GREETING, sha256
from model import QUOTA, Fault, State
from room import compares, ends_well, stops

# The number of places in each small log whose byte is damaged, and at which it is cut.
DAMAGED = 75

ONE, TWO = sha256(b"the first content"), sha256(b"second")

# A content that is in a file, of which the log has notes.
LONG = b"a long content, of which the log has notes. " * 900

# The calls of a small log. The program ends, and is started again, between the two parts.
SMALL_LOG = [
    [
        lambda state: state.starts("acme/one"),
        lambda state: state.appends(1, b"the first "),
        lambda state: state.closes(1, b"content"),
        lambda state: state.starts("acme/one"),
        lambda state: state.closes(2, b"second"),
        lambda state: state.mounts("acme/two", ONE, "acme/one"),
        lambda state: state.mounts("acme/two", sha256(b""), ""),
        lambda state: state.closes(3, b""),
        lambda state: state.puts_manifest("acme/one", [ONE, TWO], 1),
    ],
    [
        lambda state: state.starts("acme/two"),
        lambda state: state.appends(4, b"an open session"),
        lambda state: state.starts("acme/one"),
        lambda state: state.appends(5, LONG[:100]),
        lambda state: state.appends(5, LONG[100:20_000]),
        lambda state: state.closes(5, LONG[20_000:]),
        lambda state: state.starts("acme/two"),
        lambda state: state.appends(6, LONG[:50]),
        lambda state: state.appends(6, LONG[50:LONGEST + 1]),
        lambda state: state.deletes_manifest(*list(state.manifests)[0]),
        lambda state: state.deletes("acme/one", TWO),
        lambda state: state.starts("acme/one"),
        lambda state: state.appends(7, LONG + b"given up, and longer than all that is there at the end"),
        lambda state: state.abandons(7),
        lambda state: state.starts("acme/one"),
        lambda state: state.closes(8, b"the last", "sha512"),
    ],
]


class SmallLog:
    """A log of a few calls by one tenant, with the length of the log and the state after each."""

    def __init__(self, room, ends=True):
        self.room, self.tenants = room, {"acme": QUOTA}
        self.folder = room.fresh()
        self.log = self.folder / "log.1"
        self.states = []
        self.contents = {}  # the files of all contents that ever had one
        state = State("acme")
        for part in SMALL_LOG:
            blobd = room.starts(self.folder, "--sync", "each", tenants=self.tenants)
            (line,) = blobd.opens()
            self.notes(state)
            for call in part:
                state = self.plays(line, call(state))
            self.data = self.log.read_bytes()
            ends_well("a small log", blobd)
        if ends:
            self.data = self.log.read_bytes()
        self.names = set().union(*(state.names() for _, state in self.states))

    def notes(self, state):
        """Notes the length of the log, the state, and the files of contents."""
        self.states.append((self.log.stat().st_size, state))
        self.contents.update(content_files(self.folder))

    def plays(self, line, step):
        """Makes a call, and returns the state after it."""
        found = line.asks(step.request)
        if found != step.reply:
            raise Fault(f"the reply to {step.request!r} is {found!r}, and not {step.reply!r}")
        self.notes(step.after)
        return step.after

    def at(self, place):
        """Returns the state that the whole frames before a place leave."""
        return next((state for size, state in reversed(self.states) if size <= place), self.states[0][1])

    def runs(self, data, state, *options):
        """Runs a program on this log, with requests for all that may be there. Returns how the run ends, and what it must write if
        this is the state."""
        self.log.write_bytes(data)
        for name, content in self.contents.items():
            (self.folder / name).write_bytes(content)
        steps = state.observed(self.names)
        given = GREETING + b"".join(step.request for step in steps)
        found = self.room.runs(self.folder, *options, given=given, tenants=self.tenants)
        return found, GREETING + b"".join(step.reply for step in steps)

    def starts_with(self, name, data, state, kept, *options):
        """Tests a start from this log that finds the state, after cutting the log to `kept` bytes."""
        found, wanted = self.runs(data, state, *options)
        compares(f"{name}, status and standard output", found[:2], (0, wanted))
        left = self.log.read_bytes()
        compares(f"{name}, the log's first bytes", left[:kept] == data[:kept], True)
        reading = LogReading(left)
        compares(f"{name}, the log after it", (reading.ending, reading.records(left, kept)), ("ended", b""))


def read_as_it_must(small, name, data):
    """Tests a start from a log that is damaged or torn, by what docs/LOG.md says of its bytes."""
    reading = LogReading(data)
    if reading.ending in ("ended", "torn"):
        small.starts_with(name, data, small.at(reading.place), reading.place)
        return
    found, _ = small.runs(data, small.at(0))
    stops(name, found, 8, small.log, *([reading.place] if reading.ending == "damaged" else []))
    compares(f"{name}, the log after it", small.log.read_bytes() == data, True)


def damage(room):
    """Damages single bytes of a log that has ended, and of one whose program was killed, and cuts them off. Each is damaged, or torn
    and read without what was not synced."""
    for small in (SmallLog(room), SmallLog(room, False)):
        step = 1 if room.long > 1 else len(small.data) // DAMAGED
        for place in range(room.rng.randrange(step), len(small.data), step):
            byte = small.data[place] ^ room.rng.randrange(1, 256)
            data = small.data[:place] + bytes([byte]) + small.data[place + 1:]
            read_as_it_must(small, f"a damaged byte at {place}", data)
            read_as_it_must(small, f"a log cut at {place}", small.data[:place])
        read_as_it_must(small, "a whole log", small.data)
        read_as_it_must(small, "a log with zeros", small.data + bytes(100))
        read_as_it_must(small, "a log with other bytes", small.data + b"any" * 50)


def scrambled(data, rng):
    """Returns a log of which a part was left out, repeated, put elsewhere, inserted, or overwritten."""
    start, end, to = sorted(rng.randint(HEADER, len(data)) for _ in range(3))
    if rng.random() < 0.5:
        # whole frames
        start, end, to = sorted(rng.choices([frame.place for frame in LogReading(data).frames], k=3))
    return rng.choice([
        data[:start] + data[end:],
        data[:end] + data[start:],
        data[:start] + data[end:to] + data[start:end] + data[to:],
        data[:start] + rng.randbytes(rng.randint(1, 100)) + data[start:],
        data[:start] + bytes(end - start) + data[end:],
        data[:start] + rng.randbytes(end - start) + data[end:],
        data[:end] + data[start:to] + data[to:],
    ])


def scrambled_logs(room):
    """Tests logs whose parts are in disorder."""
    for small in (SmallLog(room), SmallLog(room, False)):
        for number in range(40 * room.long):
            read_as_it_must(small, f"scrambled log {number}", scrambled(small.data, room.rng))


def no_logs(room):
    """Tests files that are no log of this version."""
    small = SmallLog(room)
    number = int.from_bytes(small.data[16:24], "little")
    cases = {
        "an empty file": b"",
        "a file of one byte": b"b",
        "a text": b"something else, longer than the header of a log",
        "a log of version 2": data_folder.header(number, 2) + small.data[HEADER:],
        "a log of version 0": data_folder.header(number, 0) + small.data[HEADER:],
        "a header with another id": small.data[:16] + bytes(8) + small.data[24:],
        "zeros": bytes(len(small.data)),
    }
    for name, data in cases.items():
        read_as_it_must(small, name, data)


def second_logs(room):
    """Tests the log of an earlier version, `log`: alone it becomes `log.1`, and beside that the folder is refused."""
    small = SmallLog(room)
    second = small.folder / "log"
    second.write_bytes(small.data)
    found, _ = small.runs(small.data, small.at(0))
    stops("two logs", found, 8, second, "another log")
    compares("two logs, after it", (second.read_bytes(), small.log.read_bytes()), (small.data, small.data))
    second.unlink()
    small.starts_with("the other log alone", small.data, small.at(len(small.data)), len(small.data))


def accepted_losses(room):
    """Tests that a damaged log is cut at the byte that the message named, if the operator accepts the loss."""
    small = SmallLog(room)
    for place in sorted(room.rng.sample(range(HEADER, len(small.data) - 2 * MARK), 10)):
        data = small.data[:place] + bytes([small.data[place] ^ 1]) + small.data[place + 1:]
        reading = LogReading(data)
        if reading.ending != "damaged":
            continue
        for other in (0, reading.place - 1, reading.place + 1, len(data)):
            found, _ = small.runs(data, small.at(0), "--accept-loss-after", str(other))
            stops(f"an accepted loss after {other}", found, 8, small.log, reading.place)
        accept = "--accept-loss-after", str(reading.place)
        small.starts_with(f"an accepted loss after {reading.place}", data, small.at(reading.place), reading.place, *accept)
        left = small.log.read_bytes()
        small.starts_with("a start after an accepted loss", left, small.at(reading.place), len(left), *accept)


def other_frames(room):
    """Tests logs with the same records in other frames, so that a record begins in one frame and ends in another. Each is cut after some
    frames: then the records that are whole are there, also after another start."""
    small = SmallLog(room)
    reading = LogReading(small.data)
    records = reading.records(small.data)
    states = [(len(reading.records(small.data, 0, size)), state) for size, state in small.states]
    for size in (1, 7, 60, 500):
        payloads = [records[place:place + size] for place in range(0, len(records), size)]
        kept = {len(payloads)} | {room.rng.randint(0, len(payloads)) for _ in range(8 * room.long)}
        for count in sorted(kept):
            name = f"{count} of {len(payloads)} frames of {size} bytes of records"
            whole, state = [(length, state) for length, state in states if length <= count * size][-1]
            data = data_folder.framed(reading.number, payloads[:count])
            for start in ("a start", "another start"):
                found, wanted = small.runs(data, state)
                compares(f"{name}, {start}", found[:2], (0, wanted))
                data = small.log.read_bytes()
                after = LogReading(data)
                compares(f"{name}, the log after {start}", (after.ending, after.records(data)), ("ended", records[:whole]))


def strange_records(room):
    """Tests logs that are whole and have records which no store of these settings writes. Nothing is served."""
    small = SmallLog(room)
    reading = LogReading(small.data)
    records = reading.records(small.data)
    head = struct.Struct("<IHHQQ")
    for name, more in {
        "a record of a later version": head.pack(16, 0, 0, 0, 0),
        "a record of no kind": bytes(24),
        "a record with a field that must be empty": head.pack(1, 8, 0, 1, 0) + b"acme/new",
        "a repository that is there": head.pack(1, 8, 0, 0, 0) + b"acme/one",
        "a session that is there": head.pack(2, 8, 0, 4, 0) + b"acme/two",
        "a session that is not the next": head.pack(2, 8, 0, 100, 0) + b"acme/one",
        "a chunk for no session": head.pack(3, 4, 0, 99, 1) + b"acme" + b"x",
        "a blob with another digest": head.pack(4, 4, 71, 4, 1) + b"acme" + sha256(b"y").encode() + b"x",
        "an end of no session": head.pack(5, 4, 0, 99, 0) + b"acme",
        "a link to no blob": head.pack(6, 8, 71, 0, 0) + b"acme/one" + sha256(b"y").encode(),
        "no link": head.pack(7, 8, 71, 0, 0) + b"acme/one" + sha256(b"y").encode(),
        "no manifest": head.pack(8, 8, 0, 0, 2) + b"acme/one" + b"{}",
        "notes that are cut off": head.pack(13, 4, 0, 6, 15) + b"acme" + bytes(15),
        "notes of no bytes": head.pack(13, 4, 0, 6, 16) + b"acme" + bytes(16),
        "notes for no session": head.pack(13, 4, 0, 99, 16) + b"acme" + struct.pack("<QQ", 1, 0),
        "notes for a content that is in the log": head.pack(13, 4, 0, 4, 16) + b"acme" + struct.pack("<QQ", 1, 0),
    }.items():
        data = data_folder.framed(reading.number, [records, more])
        found, _ = small.runs(data, small.states[-1][1])
        stops(name, found, 8, small.log)
        compares(f"{name}, the log after it", small.log.read_bytes() == data, True)


def other_settings(room):
    """Tests a start with other settings than those under which the log was written. They have to suffice for the last state, and not for
    what the store had for a time."""
    small = SmallLog(room)
    _, state = small.states[-1]
    contents = {digest: data for (_, digest), data in state.links.items()}
    longest = max(map(len, contents.values()))
    files = data_files(small.folder)
    # The first two have the quota and the share in their replies.
    steps = state.observed(small.names)[2:]
    given = GREETING + b"".join(step.request for step in steps)
    wanted = GREETING + b"".join(step.reply for step in steps)
    for name, (words, text) in {
        "a missing tenant": ({"tenants": {"other": QUOTA}}, "acme"),
        "a smaller quota": ({"tenants": {"acme": state.use() - 1}}, "acme"),
        "a smaller share": ({"tenants": {"acme": f"{QUOTA},{len(contents) - 1}"}}, "number of blobs"),
        "fewer slots": ({"slots": len(contents) - 1}, "slots"),
        "a smaller limit of blobs": ({"most": longest - 1}, "limit"),
    }.items():
        puts_data(small.folder, files)
        words = {"tenants": small.tenants, **words}
        stops(name, room.runs(small.folder, **words), 10, text, lines=2)
        stops(f"{name}, another start", room.runs(small.folder, **words), 10, text, lines=2)
        compares(f"{name}, a start with those of before", room.runs(small.folder, given=given, tenants=small.tenants)[:2], (0, wanted))
    for name, words in {
        "more tenants in another order": {"tenants": {"other": 1, "acme": QUOTA, "more": 2}},
        "more of everything": {"tenants": {"acme": 2 * QUOTA}, "slots": 65536, "most": 1 << 40},
        "just enough of everything": {"tenants": {"acme": f"{state.use()},{len(contents)}"}, "slots": len(contents), "most": longest},
    }.items():
        puts_data(small.folder, files)
        found = room.runs(small.folder, given=given, **{"tenants": small.tenants, **words})
        compares(name, found[:2], (0, wanted))
    compares("the bytes before and after the past was dropped", log_length(small.folder) < len(small.data), True)
