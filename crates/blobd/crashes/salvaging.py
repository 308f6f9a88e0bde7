"""Starts that go on with what is left of a damaged log: bits that changed in each kind of place, files that are missing, and crashes
meanwhile."""
import struct

from data_folder import MARK, Ended, FolderLog, LogReading, Trace, log_files, numbered
from logs import SmallLog
from room import compares, stops, wait_until
from segments import Segments, changed

HEAD = struct.Struct("<IHHQQ")

# The kinds of records that have the number of a session: it is opened, it gets a chunk, it becomes a blob. The last two have notes.
OF_SESSIONS = 2, 3, 4, 13, 14


def accepts(folder):
    """Accepts the loss of what is damaged, at the next start. Removes the files that an earlier one has kept."""
    (folder / "accept-loss").write_bytes(b"")
    for path in folder.glob("damaged-*"):
        path.unlink()


def sessions_in(records):
    """Returns the numbers of the sessions of records."""
    found, place = set(), 0
    while place < len(records):
        kind, name, digest, number, body = HEAD.unpack_from(records, place)
        if kind in OF_SESSIONS:
            found.add(number)
        place += HEAD.size + name + digest + body
    return found


class Parts:
    """The frames of the files of a log, and the sessions whose records each has."""

    def __init__(self, files):
        self.frames = {}
        for name, data in files.items():
            self.frames[name] = [
                (frame, sessions_in(data[frame.place + 32:frame.place + 32 + frame.length])) for frame in LogReading(data).frames
            ]

    def lost_at(self, name, place):
        """Returns the sessions that a changed bit costs. One in the header costs none, and one in the sum at the end of a frame costs
        none if another frame follows."""
        for frame, sessions in self.frames[name]:
            end = frame.place + MARK + frame.length
            if frame.place <= place < end:
                is_last = frame is self.frames[name][-1][0]
                return set() if place >= end - 8 and not is_last else sessions
        return set()

    def lost_with(self, name):
        """Returns the sessions that a file costs."""
        return set().union(*(sessions for _, sessions in self.frames[name]))


def left_without(made, lost):
    """Returns the state without the contents of sessions. The content of session N is the Nth one that was pushed."""
    state = made.state.copy()
    for number, key in enumerate(list(state.links), 1):
        if number in lost:
            del state.links[key]
    return state


def goes_on(made, title, files, lost, *texts):
    """Tests that a start from these files ends with status 8, and that one with the loss accepted finds all but what is lost, and says so. Then
    the log is whole, and the damaged files are kept."""
    found, _ = made.runs(files, made.state)
    stops(title, found, 8)
    compares(f"{title}, the files after it", log_files(made.folder) == files, True)
    accepts(made.folder)
    found, wanted = made.runs(files, left_without(made, lost))
    compares(f"{title}, status and standard output with the loss accepted", found[:2] == (0, wanted), True)
    for text in texts:
        compares(f"{title}, whether {found[2]!r} has {text!r}", text in found[2], True)
    kept = {path.name: path.read_bytes() for path in made.folder.glob("damaged-*")}
    compares(f"{title}, the files that are kept", kept == {f"damaged-{name.replace('.', '-')}": data for name, data in files.items()}, True)
    left = log_files(made.folder)
    compares(f"{title}, whether the ids are in order", FolderLog(made.folder).is_in_order(), True)
    found, wanted = made.runs(left, left_without(made, lost))
    compares(f"{title}, the start after it", found[:2] == (0, wanted), True)


def places_of(parts, name):
    """Returns places of each kind in a file: in its header, in each field of a frame in its middle, and in a mark at its end."""
    frames = [frame for frame, sessions in parts.frames[name] if sessions]
    first, middle = frames[0], frames[len(frames) // 2]
    last = parts.frames[name][-1][0]
    end = middle.place + MARK + middle.length
    return {
        "the magic": 3, "the version": 8, "the id": 20, "the sum of the header": 27,
        "the first record": first.place + 33, "the place of a frame": middle.place + 1, "the synced offset": middle.place + 9,
        "the length": middle.place + 16, "the high bits of the length": middle.place + 22, "the sum of a head": middle.place + 25,
        "a payload": middle.place + 32 + middle.length // 2, "the sum of a frame": end - 4, "a mark": last.place + 2,
    }


def one_bit(made, parts, name):
    """Changes a bit in each kind of place in a file."""
    for what, place in places_of(parts, name).items():
        files = {**made.files, name: changed(made.files[name], place)}
        lost = parts.lost_at(name, place)
        goes_on(made, f"a changed bit in {what} of {name}", files, lost, *([f"{made.folder}/{name} has no whole frame from byte "] if lost else []))


def salvaged_segments(room):
    """Tests logs of several files of which a bit has changed, or several have, or a file is missing or another one."""
    made = Segments(room)
    parts = Parts(made.files)
    names = [path.name for path in made.log.paths]
    one_bit(made, parts, names[1])
    first, second, last = names[0], names[1], names[-1]
    places = [(name, parts.frames[name][2][0].place + 50) for name in (first, second, names[2])]
    files = dict(made.files)
    for name, place in places:
        files[name] = changed(files[name], place)
    goes_on(made, "three changed bits", files, set().union(*(parts.lost_at(*place) for place in places)))
    for name in (first, second):
        files = {other: data for other, data in made.files.items() if other != name}
        goes_on(made, f"without {name}", files, parts.lost_with(name), f"blobd: lost: {made.folder}/{name} is missing\n")
    goes_on(made, "an empty file", {**made.files, second: b""}, parts.lost_with(second))
    goes_on(made, "a file of zeros", {**made.files, second: bytes(len(made.files[second]))}, parts.lost_with(second))
    goes_on(made, "two files exchanged", {**made.files, first: made.files[second], second: made.files[first]},
            parts.lost_with(first) | parts.lost_with(second))
    place = parts.frames[last][0][0].place + 40
    goes_on(made, "the first frame of the last file", {**made.files, last: changed(made.files[last], place)}, parts.lost_at(last, place))


def salvaged_bases(room):
    """Tests a log with a base of which a bit has changed."""
    made = Segments(room)
    made.rewrites()
    parts = Parts(made.files)
    one_bit(made, parts, made.log.base.name)


def salvaged_calls(room):
    """Tests that a log of all kinds of changes goes on after each changed bit, and that no content is another one."""
    small = SmallLog(room)
    step = 1 if room.long > 1 else len(small.data) // 75
    contents = {}
    for _, state in small.states:
        contents.update({("link", *key): data for key, data in state.links.items()})
        contents.update({("manifest", *key): data for key, data in state.manifests.items()})
    for place in range(room.rng.randrange(step), len(small.data), step):
        data = changed(small.data, place)
        if LogReading(data).ending in ("ended", "torn"):
            continue
        for path in [path for kind in ("log", "base") for path in numbered(small.folder, kind).values()]:
            path.unlink()
        accepts(small.folder)
        found, _ = small.runs(data, small.states[-1][1])
        compares(f"a changed bit at {place}, the status", found[0], 0)
        again = small.room.runs(small.folder, tenants=small.tenants)
        compares(f"a changed bit at {place}, the status of the next start", again[0], 0)


def interrupted_salvage(room):
    """Kills a program after each of its calls while it writes what is left of a damaged log. The next start finds the damaged log or what is
    left of it, and the one with the loss accepted what is left."""
    made = Segments(room)
    parts = Parts(made.files)
    name = made.log.paths[1].name
    place = parts.frames[name][2][0].place + 50
    files = {**made.files, name: changed(made.files[name], place)}
    state = left_without(made, parts.lost_at(name, place))
    made.puts(files)
    accepts(made.folder)
    blobd = room.starts(made.folder, settings=room.traced(), **made.words)
    blobd.opens()
    blobd.ends()
    calls = len(Trace(room.path / "trace").calls)
    for place in range(1, calls):
        made.puts(files)
        accepts(made.folder)
        blobd = room.starts(made.folder, settings={**room.traced(), "CRASH_KILL": str(place)}, **made.words)
        wait_until("the end of a program", lambda: blobd.process.poll() is not None or has_opened(blobd))
        blobd.kills()
        found = room.runs(made.folder, **made.words)
        compares(f"a start after a kill at call {place}, its status", found[0] in (0, 8), True)
        accepts(made.folder)
        found, wanted = made.runs(log_files(made.folder), state)
        compares(f"a start after a kill at call {place}, with the loss accepted", found[:2] == (0, wanted), True)


def has_opened(blobd):
    """Returns whether a program serves its connections."""
    try:
        return bool(blobd.opens())
    except Ended:
        return False
