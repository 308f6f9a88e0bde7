"""Logs of several files: damage in them, files that are missing or wrong, and crashes while the next one begins."""
import re
import shutil
import struct
import time

from data_folder import HEADER, WORD, Ended, FolderLog, LogReading, Trace, content_files, data_files, framed, log_files, log_length
from data_folder import numbered, puts_data, puts_log
from frames import GREETING
from kills import litter, lose_power
from model import QUOTA, State
from room import all_there, all_there_still, clients, compares, counts, ends_well, fault, stops, wait_until

# The lengths of the contents of a log of segments, over and over: all but one are in the log. The number of contents, of which more than 65
# make a segment long enough to be closed. The length of a manifest, of which three do so.
LENGTHS, CONTENTS, MANIFEST = (16_384, 16_384, 16_384, 16_384, 16_384, 40_000), 320, 400_000

# The number of contents that are read after a start.
READ = 60


class Segments:
    """A folder with a log of some segments by one tenant, with the length of the log and the state after each call. It is made once, and
    copied for each test, unless it has to be another one."""

    def __init__(self, room, is_another=False):
        self.room, self.folder = room, room.fresh()
        self.words = {"tenants": {"acme": QUOTA}}
        if is_another or not room.segments:
            self.states = [(HEADER, State("acme"))]
            blobd = room.starts(self.folder, "--sync", "each", **self.words)
            (line,) = blobd.opens()
            self.uploads(line)
            ends_well("a log of segments", blobd)
            room.segments = room.segments or (data_files(self.folder), self.states)
        else:
            files, states = room.segments
            puts_data(self.folder, files)
            self.states = list(states)
        self.keeps()

    def uploads(self, line):
        """Uploads contents, most of which are in the log."""
        for place in range(CONTENTS):
            number = self.states[-1][1].following
            self.plays(line, lambda state: state.starts("acme/one"))
            self.plays(line, lambda state: state.closes(number, self.room.rng.randbytes(LENGTHS[place % len(LENGTHS)])))

    def keeps(self):
        """Notes the files as they are."""
        self.files, self.log = log_files(self.folder), FolderLog(self.folder)
        self.contents = content_files(self.folder)
        self.state = self.states[-1][1]
        # the use and the number of blobs are those of all
        self.names = self.room.rng.sample(sorted(self.state.names(), key=str), READ)

    def plays(self, line, make):
        """Makes a call, and notes the length of the log and the state after it."""
        step = make(self.states[-1][1])
        compares("the reply to a call", line.asks(step.request), step.reply)
        self.states.append((log_length(self.folder), step.after))

    def rewrites(self):
        """Makes a base of the first segments, and adds others."""
        (self.folder / "rewrite").write_bytes(b"")
        blobd = self.room.starts(self.folder, "--sync", "each", **self.words)
        (line,) = blobd.opens()
        wait_until("a base", lambda: FolderLog(self.folder).base)
        wait_until("a base in place of the segments", lambda: len(numbered(self.folder, "base")) + len(numbered(self.folder, "log")) == 2)
        self.states = [(log_length(self.folder), self.states[-1][1])]
        self.uploads(line)
        ends_well("a log with a base", blobd)
        self.keeps()

    def at(self, offset):
        """Returns the state that the whole frames before an offset in the log leave, or None if it was not noted."""
        return next((state for size, state in reversed(self.states) if size <= offset), None)

    def puts(self, files):
        """Leaves these files in the folder as those of the log, and all files of contents."""
        puts_log(self.folder, files)
        for name, data in self.contents.items():
            (self.folder / name).write_bytes(data)

    def runs(self, files, state, *options):
        """Runs a program on these files, with requests for all that may be there. Returns how the run ends, and what it must write if
        this is the state."""
        self.puts(files)
        steps = state.observed(self.names)
        given = GREETING + b"".join(step.request for step in steps)
        found = self.room.runs(self.folder, *options, given=given, **self.words)
        return found, GREETING + b"".join(step.reply for step in steps)

    def is_damaged(self, title, files, name, place):
        """Tests that a start from these files finds damage at a place of one of them, changes nothing, and goes on from there if the loss
        is accepted."""
        path = self.folder / name
        before = sum(len(files[one]) for one in self.before(name))
        found, _ = self.runs(files, self.state)
        stops(title, found, 8, path, f"at byte {place}, byte {before + place} of the log")
        compares(f"{title}, the files after it", log_files(self.folder) == files, True)
        state = self.at(before + place)
        if state is None or (name.startswith("base") and place < HEADER):
            return
        found = self.room.runs(self.folder, "--accept-loss-after", str(before + place + 1), **self.words)
        stops(f"{title}, with another loss accepted", found, 8, path)
        found, wanted = self.runs(files, state, "--accept-loss-after", str(before + place))
        compares(f"{title}, status and standard output with the loss accepted", found[:2] == (0, wanted), True)
        left = self.before(name) + [name] * (place >= HEADER)
        compares(f"{title}, the files that are left", sorted(log_files(self.folder)), sorted(left or ["log.1"]))

    def before(self, name):
        """Returns the names of the files before one of them."""
        names = [path.name for path in self.log.paths]
        return names[:names.index(name)]


def changed(data, place):
    """Returns bytes of which the one at a place is another one."""
    return data[:place] + bytes([data[place] ^ 1]) + data[place + 1:]


def frame_at(frames, place):
    """Returns the place of the frame that has a byte, or 0 if it is in the header."""
    return max((frame.place for frame in frames if frame.place <= place), default=0)


def damages(made, paths):
    """Damages bytes in closed files, and cuts them off within and between their frames."""
    rng = made.room.rng
    for path in paths:
        data = made.files[path.name]
        frames = LogReading(data).frames
        places = [rng.randrange(HEADER), *rng.choices(range(HEADER, len(data)), k=made.room.long), len(data) - 1]
        for place in places:
            files = {**made.files, path.name: changed(data, place)}
            made.is_damaged(f"a damaged byte {place} of {path.name}", files, path.name, frame_at(frames, place))
        # a cut right after a mark within the file is not noticed
        ends = [later.place for frame, later in zip(frames, frames[1:]) if frame.length > 0]
        for end in (ends[-1], rng.choice(ends), rng.randrange(HEADER + 1, len(data))):
            whole = max([HEADER] + [frame.place for frame in frames if frame.place <= end])
            made.is_damaged(f"{path.name} cut at {end}", {**made.files, path.name: data[:end]}, path.name, whole)


def segments(room):
    """Tests a log of several segments: starts, and damage in its files."""
    made = Segments(room)
    compares("a log of several segments", len(made.log.paths) >= 4, True)
    compares("whether their ids are in order", made.log.is_in_order(), True)
    found, wanted = made.runs(made.files, made.state)
    compares("a start from several segments", found[:2] == (0, wanted), True)
    damages(made, made.log.paths[:-1])
    wrong_files(room, made)


def wrong_files(room, made):
    """Tests files that are missing, exchanged, or those of another log."""
    names = [path.name for path in made.log.paths]
    one, two, three = names[1], names[2], names[-1]
    other = Segments(room, True)
    files = made.files
    for title, name, wrong in (
        ("a missing segment", one, {name: data for name, data in files.items() if name != one}),
        ("a missing first file", names[0], {name: data for name, data in files.items() if name != names[0]}),
        ("two segments exchanged", one, {**files, one: files[two], two: files[one]}),
        ("a segment in place of the next one", two, {**files, two: files[one]}),
        ("a segment of another log", one, {**files, one: other.files["log.2"]}),
        ("a last segment of another log", three, {**files, three: other.files["log.2"]}),
    ):
        made.is_damaged(title, wrong, name, 0)


def unsound_files(made):
    """Returns, for each way in which the closed files of a log may be unsound, the changed files (None: the file is removed), the file that
    is named, and the place in it."""
    files = made.files
    names = [path.name for path in made.log.paths]
    first, second, third = names[0], names[1], names[2]
    frames = LogReading(files[second]).frames
    body = next(frame for frame in frames if frame.length > 0)
    marks = [frame.place for frame in frames if frame.length == 0]
    return {
        "a missing first file": ({first: None}, first, 0),
        "a missing file": ({second: None}, second, 0),
        "two missing files": ({second: None, third: None}, second, 0),
        "two files exchanged": ({first: files[second], second: files[first]}, second, 0),
        "a damaged byte": ({second: changed(files[second], body.place + 40)}, second, body.place),
        "a file without the mark at its end": ({second: files[second][:marks[-1]]}, second, marks[-1]),
        "an empty file": ({second: b""}, second, 0),
    }


def unsound_rewriting(room):
    """Tests that a program which is asked to rewrite its log names the first closed file that is missing or damaged, changes nothing, and
    goes on. When the files are as they were, all is there."""
    made = Segments(room)
    compares("a log of several segments", len(made.log.paths) >= 4, True)
    for title, (wrong, name, place) in unsound_files(made).items():
        made.puts(made.files)
        blobd = room.starts(made.folder, "--sync", "each", **made.words)
        (line,) = blobd.opens()
        for path, data in ((made.folder / one, data) for one, data in wrong.items()):
            path.unlink() if data is None else path.write_bytes(data)
        wanted = log_files(made.folder)
        request = made.folder / "rewrite"
        request.write_bytes(b"")
        wait_until("the removal of a request", lambda: not request.exists())
        step = made.states[-1][1].starts("acme/one")
        compares(f"{title}: a call meanwhile, before which the last file is closed", line.asks(step.request), step.reply)
        time.sleep(2.2)  # Two looks.
        last = made.log.last.name
        written = (last, f"log.{int(last[4:]) + 1}")
        found, wanted = ({name: data for name, data in files.items() if name not in written} for files in (log_files(made.folder), wanted))
        compares(f"{title}: the closed files after a request", found == wanted, True)
        status, text = blobd.ends()
        compares(f"{title}: the status", status, 0)
        told = f"blobd: the log in {made.folder} was not rewritten: /{name} is damaged at byte {place}: "
        compares(f"{title}: whether {text!r} names the file", told in text, True)
    found, wanted = made.runs(made.files, made.state)
    compares("a start from the files as they were", found[:2] == (0, wanted), True)


def differing_rewriting(room):
    """Tests that a base which leaves another state than the files that it was written from does not take their place, nor one whose records
    are not taken: when it was written, it gets the first records of the log alone, and others."""
    made = Segments(room)
    first = made.files[made.log.paths[0].name]
    begun = [first[frame.place + 32:frame.place + 32 + frame.length] for frame in LogReading(first).frames if frame.length > 0][:2]
    name = b"other/one"
    other, request = room.path / "other-base", made.folder / "rewrite"
    other.write_bytes(b"")
    blobd = room.starts(made.folder, "--sync", "each", settings={"CRASH_BASE": str(other)}, **made.words)
    blobd.opens()
    bases = {
        "the new log has another state": begun,
        r"/owner-\d+/base\.new: frames that are not whole records": [begun[0], begun[1][:-1]],
        r"/owner-\d+/base\.new: a tenant that the store does not have": [struct.pack("<IHHQQ", 2, len(name), 0, 1, 0) + name],
    }
    for payloads in bases.values():
        other.write_bytes(framed(made.log.numbers()[-2], payloads))
        request.write_bytes(b"")
        wait_until("the removal of a request", lambda: not request.exists())
        time.sleep(3.5)  # It waits for a change at two looks.
    status, text = blobd.ends()
    compares("the status of a program whose rewriting differs", status, 0)
    number = len(made.log.paths) - 1
    for reason in bases:
        told = rf"blobd: {re.escape(str(made.folder))}/base\.{number} was not written: {reason}\n"
        compares(f"whether {text!r} has the reason {reason}", re.search(told, text) is not None, True)
    last = made.log.last.name
    compares("the files after a rewriting that differs", {**log_files(made.folder), last: b""} == {**made.files, last: b""}, True)
    found, wanted = made.runs(made.files, made.state)
    compares("a start from the files as they were", found[:2] == (0, wanted), True)


def bases(room):
    """Tests a log that begins with a base: starts, damage, and what crashes may leave beside its files."""
    made = Segments(room)
    old = made.files
    made.rewrites()
    compares("a log with a base and several segments", (made.log.base is not None, len(made.log.paths) >= 4), (True, True))
    compares("whether their ids are in order", made.log.is_in_order(), True)
    damages(made, made.log.paths[:2])
    base = made.log.base.name
    others = {name: data for name, data in made.files.items() if name != base}
    number = int(base[5:])
    replaced = {name: data for name, data in old.items() if int(name[4:]) <= number}
    for title, more in {
        "the segments that a base has replaced": replaced,
        "some of the segments that a base has replaced": dict(list(replaced.items())[1:]),
        "a base that another one has replaced": {"base.1": made.files[base]},
        "a segment that is being made": {"log.new": made.files["log.%d" % (number + 1)][:HEADER]},
        "the begin of a header": {"log.new": b"bloblog"},
        "a base that is being written": {"base.new": made.files[base][:MANIFEST]},
        "a whole base before its name": {"base.new": made.files[base]},
        "an empty base": {"base.new": b"", "log.new": b""},
    }.items():
        found, wanted = made.runs({**made.files, **more}, made.state)
        compares(f"a start beside {title}", found[:2] == (0, wanted), True)
        compares(f"the files after it, beside {title}", sorted(log_files(made.folder)), sorted(made.files))
    stops("a missing base", made.runs(others, made.state)[0], 8)


def lonely_bases(room):
    """Tests a base after which there is no segment, as a crash leaves it while the program starts."""
    folder, everybody = room.fresh(), clients(room)
    litter(room, folder, everybody)
    room.runs(folder)
    log = FolderLog(folder)
    number = log.numbers()[0]
    for left in (None, b"", b"bloblog", log.last.read_bytes()[:HEADER]):
        name = log.last.name
        puts_log(folder, {log.base.name: log.base.read_bytes(), **({} if left is None else {"log.new": left})})
        all_there_still(room, folder, everybody)
        compares("the files of a log that was a base", sorted(log_files(folder)), sorted([log.base.name, name]))
        compares("the ids of its files", FolderLog(folder).numbers(), [number, number + 1 & WORD])


def puts_long_manifest(client, line, repository, digest, length=MANIFEST):
    """Puts a manifest of at least this length, which the log has, for a content that is there."""
    client.plays(line, client.state.puts_manifest(repository, [digest], client.rng.randbytes(length // 2).hex()))


def pushes(client, line, count):
    """Pushes some contents, each in a file, with a long manifest each. Returns whether the program answered all of them."""
    try:
        for _ in range(count):
            number = client.state.following
            client.plays(line, client.state.starts("t0/one"))
            client.plays(line, client.state.closes(number, client.rng.randbytes(LENGTHS[-1])))
            puts_long_manifest(client, line, "t0/one", list(client.state.links)[-1][1])
    except Ended:
        return False
    return True


def rolls(room):
    """Kills the program after each of its calls while it begins new segments, and takes the power away then."""
    folder, (client, *_) = room.fresh(), clients(room)
    blobd = room.starts(folder, settings=room.traced())
    (line,) = blobd.opens()
    pushes(client, line, 4)
    ends_well("a log of two segments", blobd)
    numbered_calls = Trace(room.path / "trace").of_log()
    calls = [call for _, call in numbered_calls]
    first = calls.index(("sync", "log.1"), calls.index(("rename", "log.new")))
    second = len(calls) - calls[::-1].index(("rename", "log.new"))
    for place, _ in numbered_calls[max(first, second - 7) - 1:second + 4]:
        for is_lost in (False, True, True):
            folder, (client, *_) = room.fresh(), clients(room)
            blobd = room.starts(folder, settings={**room.traced(), "CRASH_KILL": str(place)})
            (line,) = blobd.opens()
            pushes(client, line, 4)
            blobd.kills()
            counts["kills"] += 1
            if is_lost:
                lose_power(room, folder, {})
            all_there(room, folder, [client])
            compares("whether the ids are in order", FolderLog(folder).is_in_order(), True)
            shutil.rmtree(folder)


def failing_rolls(room):
    """Lets each sync, and some writes, fail while a program begins a new segment. It must end with status 9, and all is there after a
    restart."""
    folder, (client, *_) = room.fresh(), clients(room)
    blobd = room.starts(folder, settings=room.traced())
    (line,) = blobd.opens()
    pushes(client, line, 4)
    ends_well("a log of two segments", blobd)
    calls = [call for _, call in Trace(room.path / "trace").of_log() if not call[1].startswith("/") and "longest" not in call[1]]
    place = len(calls) - calls[::-1].index(("rename", "log.new"))
    syncs = sum(call == "sync" for call, _ in calls[:place])
    cases = [("CRASH_FAIL_SYNC", number) for number in range(syncs - 3, syncs + 2)]
    for kind, number in cases + [("CRASH_FAIL_WRITE", number) for number in range(syncs - 5, syncs + 1)]:
        folder, (client, *_) = room.fresh(), clients(room)
        blobd = room.starts(folder, settings={**room.traced(), kind: str(number)})
        (line,) = blobd.opens()
        if pushes(client, line, 4):
            fault(f"{kind}={number} comes too late")
        status, text = blobd.ends()
        stops(f"{kind}={number}", (status, b"", text), 9, f"cannot write the log in {folder}")
        lose_power(room, folder, {})
        all_there(room, folder, [client])
        compares("whether the ids are in order", FolderLog(folder).is_in_order(), True)
