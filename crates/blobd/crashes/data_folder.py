"""The folder of a `blobd --data`, for crash_tests and bench/durable.py: the bytes of its log by docs/LOG.md, the files of its contents,
the shim that watches the calls on them, and the program with its connections."""
import collections
import errno
import os
import pathlib
import re
import select
import signal
import struct
import subprocess
import time

import frames
from frames import GREETING

HERE = pathlib.Path(__file__).parent

# The timeout for a start, for a reply, and for the end of the program, in seconds.
PATIENCE = 60

# Lengths in docs/LOG.md, in bytes: the header, a frame without payload, and the longest content whose bytes the log has.
HEADER, MARK, LONGEST = 32, 40, 16_384

FNV_PRIME = 1099511628211
FNV_BASIS = 14695981039346656037
WORD = (1 << 64) - 1


class Ended(Exception):
    """The connection or the program ended."""


def log_sum(start, data):
    """Returns the sum of docs/LOG.md over bytes, continued from another sum."""
    found = start
    whole = len(data) // 8 * 8
    for (word,) in struct.iter_unpack("<Q", data[:whole]):
        found = int.from_bytes(((found ^ word) * FNV_PRIME & WORD).to_bytes(8, "little"), "big")
    for byte in data[whole:]:
        found = (found ^ byte) * FNV_PRIME & WORD
    return found


def header(number, version=1):
    """Returns the header of a log with this id."""
    front = struct.pack("<8sQQ", b"bloblog\0", version, number)
    return front + struct.pack("<Q", log_sum(FNV_BASIS, front))


def framed(number, payloads):
    """Returns a log with this id of frames with these payloads. Only a mark, whose payload is empty, states a sync."""
    found = bytearray(header(number))
    chained = log_sum(FNV_BASIS, found[:24])
    for payload in payloads:
        fields = struct.pack("<QQQ", len(found), HEADER if payload else len(found), len(payload))
        begun = fields + struct.pack("<Q", log_sum(number, fields)) + payload
        chained = log_sum(chained, begun)
        found += begun + struct.pack("<Q", chained)
    return bytes(found)


Frame = collections.namedtuple("Frame", "place synced length")


class LogReading:
    """What docs/LOG.md, "Reading", says of the bytes of a log: its frames, the place where they end, and whether the log has ended, is
    torn, or is damaged there."""

    def __init__(self, data):
        self.frames = []
        self.place = HEADER
        if len(data) < HEADER or header(*struct.unpack_from("<Q", data, 16)) != data[:HEADER]:
            self.place, self.ending = 0, "no log"
            return
        self.number, chained = struct.unpack_from("<QQ", data, 16)
        while frame := self.head_at(data, self.place):
            end = self.place + MARK + frame.length
            chained = log_sum(chained, data[self.place:end - 8])
            if data[end - 8:end] != struct.pack("<Q", chained):
                break
            self.frames.append(frame)
            self.place = end
        self.ending = self.ending_of(data)

    def head_at(self, data, place):
        """Returns the frame whose head is at a place, if there is one."""
        head = data[place:place + 32]
        if len(head) < 32 or struct.unpack_from("<Q", head)[0] != place:
            return None
        if struct.pack("<Q", log_sum(self.number, head[:24])) != head[24:]:
            return None
        return Frame(*struct.unpack_from("<QQQ", head))

    def ending_of(self, data):
        """Decides what follows from the bytes after the last frame."""
        if self.place == len(data):
            return "ended"
        later = (self.head_at(data, place) for place in range(self.place, len(data)))
        return "damaged" if any(head and head.synced > self.place for head in later) else "torn"

    def records(self, data, start=0, end=WORD):
        """Returns the bytes of records in the frames between two places."""
        return b"".join(
            data[frame.place + 32:frame.place + 32 + frame.length]
            for frame in self.frames if start <= frame.place and frame.place + MARK + frame.length <= end
        )


def stated_syncs(data):
    """Returns the places up to which the frames of a log state that it was synced. Looks at the heads alone, which is fast."""
    found, place = [], HEADER
    while place + 32 <= len(data):
        stated, synced, length = struct.unpack_from("<QQQ", data, place)
        if stated != place or synced > place:
            break
        found.append(synced)
        place += MARK + length
    return found


def numbered(folder, kind):
    """Returns the files of a folder whose names are a kind (`log` or `base`) and a number, by this number."""
    names = ((path, re.fullmatch(rf"{kind}\.([1-9][0-9]*)", path.name)) for path in folder.glob(f"{kind}.*"))
    return {int(name[1]): path for path, name in names if name}


class FolderLog:
    """The log in a folder: its files in order, which are the last base, if there is one, and the segments after it."""

    def __init__(self, folder):
        bases, logs = numbered(folder, "base"), numbered(folder, "log")
        base = max(bases, default=0)
        self.base = bases.get(base)
        self.paths = [self.base] if base else []
        self.paths += [logs[number] for number in sorted(logs) if number > base]
        self.last = self.paths[-1] if self.paths else folder / "log.1"

    def length(self):
        """Returns the lengths of its files, in all."""
        return sum(path.stat().st_size for path in self.paths)

    def numbers(self):
        """Returns the ids of its files."""
        return [int.from_bytes(path.read_bytes()[16:24], "little") for path in self.paths]

    def is_in_order(self):
        """Returns whether each id is the one after that of the file before it."""
        numbers = self.numbers()
        return all(later == earlier + 1 & WORD for earlier, later in zip(numbers, numbers[1:]))


def log_length(folder):
    """Returns the length of the log in a folder."""
    return FolderLog(folder).length()


def log_files(folder):
    """Returns the bytes of all files in a folder that belong to a log, also of those that are being made or were replaced."""
    return {path.name: path.read_bytes() for kind in ("log", "base") for path in folder.glob(f"{kind}*") if path.is_file()}


def content_paths(folder):
    """Returns the paths of the files of contents in a folder, by their names: `contents/TENANT/NUMBER`."""
    return {str(path.relative_to(folder)): path for path in sorted(folder.glob("contents/*/*"))}


def content_files(folder):
    """Returns the bytes of the files of contents in a folder, by their names."""
    found = {}
    for name, path in content_paths(folder).items():
        try:
            found[name] = path.read_bytes()
        except FileNotFoundError:
            pass  # it was removed after its name was read
    return found


def data_files(folder):
    """Returns the bytes of all files in a folder that a start reads: those of the log, of contents, and the file `longest`."""
    longest = folder / "longest"
    return {**log_files(folder), **content_files(folder), **({"longest": longest.read_bytes()} if longest.exists() else {})}


def puts_data(folder, files):
    """Leaves these files in a folder as its log, its contents and the length of the longest content in the log, and no others."""
    for name in data_files(folder):
        (folder / name).unlink()
    for name, data in files.items():
        (folder / name).parent.mkdir(parents=True, exist_ok=True)
        (folder / name).write_bytes(data)


def base_in_the_way(folder):
    """Returns the path at which a folder keeps the program that owns a folder from writing a base."""
    (owner,) = folder.glob("owner-*")
    return owner / "base.new"


def puts_log(folder, files):
    """Leaves these files in a folder as those of its log, and no others. The files of contents stay."""
    for name in log_files(folder):
        (folder / name).unlink()
    for name, data in files.items():
        (folder / name).write_bytes(data)


def build_shim(room):
    """Compiles shim.c. Returns the path of the library."""
    library = room / "shim.so"
    subprocess.run(["cc", "-O1", "-shared", "-fPIC", "-o", library, HERE / "shim.c", "-ldl"], check=True)
    return library


class Trace:
    """What the shim has written about the calls on a log and on the files of contents: the calls with their first words, and for each sync
    the length."""

    def __init__(self, path):
        lines = [line.split(" ") for line in path.read_text().splitlines()] if path.exists() else []
        self.all_lines = [(call, " ".join(name), last) for call, *name, last in lines]
        self.lines = [line for line in self.all_lines if line[0] != "begin"]
        self.calls = [(call, name) for call, name, _ in self.lines]

    def of_log(self):
        """Returns the calls on the log and its folder, with their numbers among all, counted from 1."""
        return [(number, call) for number, call in enumerate(self.calls, 1) if "contents" not in call[1]]

    def syncs_by_name(self):
        """Returns the lengths at its syncs of each file, by the name that it has at last: `replaced-NAME` if a rename has replaced it."""
        found = collections.defaultdict(list)
        for call, name, last in self.lines:
            if call == "sync":
                found[name].append(int(last))
            elif call == "rename":
                found[f"replaced-{last}"] = found.get(last, [])
                found[last] = found.pop(name, [])
        return found

    def syncs(self):
        """Returns the lengths at their syncs of all files of the log that are no base."""
        return [length for name, lengths in self.syncs_by_name().items() if name.startswith("log") for length in lengths]

    def unsure_names(self):
        """Returns the renames and removals of files of the log after the last sync of its folder, the last one first: pairs of the names
        before and after. The second one is "" for a removed file."""
        lines = [line for line in self.lines if "contents" not in line[1]]
        folders = [place for place, (call, name, _) in enumerate(lines) if call == "sync" and name.startswith("/")]
        later = lines[max(folders, default=-1) + 1:]
        return [(name, last if call == "rename" else "") for call, name, last in reversed(later) if call in ("rename", "unlink")]

    def unsure_contents(self):
        """Returns what a loss of power may take from the files of contents: the offset in each after which it was changed since its last sync,
        by its name; and the names that were made or removed since the last sync of the folder that has them, in order. A sync has what lies in
        front of the end that the file had when it began: a thread may sync one chunk while the next is written."""
        changed, pending, begun = collections.defaultdict(list), collections.defaultdict(list), {}
        for call, name, last in self.all_lines:
            if name.startswith("contents"):
                if call in ("create", "unlink", "mkdir"):
                    pending[name.rpartition("/")[0]].append((call, name))
                if call in ("create", "write", "cut"):
                    changed[name].append(int(last))
                elif call == "sync":
                    changed[name] = [offset for offset in changed[name] if offset >= int(last) > 0]
            elif name.startswith("/"):
                folder = name[name.index("/contents") + 1:] if "/contents" in name else ""
                if call == "begin":
                    begun[folder] = len(pending[folder])
                elif call == "sync":
                    done = begun.pop(folder, len(pending[folder]))
                    del pending[folder][:done]
        return {name: min(offsets) for name, offsets in changed.items() if offsets}, [step for steps in pending.values() for step in steps]


Reply = collections.namedtuple("Reply", "status first second digest body")


class Connection:
    """The client's ends of a connection."""

    def __init__(self, to, back):
        self.to, self.back = to, back

    def writes(self, data):
        """Writes all bytes. The pipe does not block."""
        data = memoryview(data)
        try:
            while data:
                if not select.select([], [self.to], [], PATIENCE)[1]:
                    raise TimeoutError(f"{len(data)} bytes of a request are not read")
                data = data[os.write(self.to, data):]
        except BrokenPipeError:
            raise Ended from None

    def reads(self, count):
        """Reads `count` bytes."""
        data = b""
        while len(data) < count:
            if not select.select([self.back], [], [], PATIENCE)[0]:
                raise TimeoutError(f"{count - len(data)} bytes of a reply do not arrive")
            more = os.read(self.back, count - len(data))
            if not more:
                raise Ended
            data += more
        return data

    def greets(self):
        """Sends the greeting, and reads the server's."""
        self.writes(GREETING)
        return self.reads(len(GREETING)) == GREETING

    def hears(self):
        """Reads the bytes of a reply."""
        head = self.reads(32)
        _, text, _, _, body = struct.unpack("<IIQQQ", head)
        return head + self.reads(text + body)

    def asks(self, sent):
        """Sends the bytes of a request, and returns those of the reply."""
        self.writes(sent)
        return self.hears()

    def calls(self, command, *fields, **more):
        """Makes a request, and returns the fields of the reply."""
        found = self.asks(frames.request(command, *fields, **more))
        status, text, first, second, _ = struct.unpack_from("<IIQQQ", found)
        return Reply(status, first, second, found[32:32 + text].decode(), found[32 + text:])

    def closes(self):
        """Closes both ends."""
        os.close(self.to)
        os.close(self.back)


class Blobd:
    """A running program, with connections over named pipes."""

    def __init__(self, command, room, connections=1, shim=None, settings=None):
        self.pipes = [[room / f"{number}.{end}" for end in ("in", "out")] for number in range(connections)]
        for path in (path for pair in self.pipes for path in pair):
            path.unlink(missing_ok=True)
            os.mkfifo(path)
        environment = {**os.environ, **(settings or {}), **({"LD_PRELOAD": str(shim)} if shim else {})}
        words = [*command, "--", *(path for pair in self.pipes for path in pair)]
        self.process = subprocess.Popen(words, stdin=subprocess.DEVNULL, stderr=subprocess.PIPE, env=environment)
        self.connections = []

    def opens(self):
        """Opens the connections. Fails with `Ended` if the program ends before."""
        for requests, replies in self.pipes:
            back = os.open(replies, os.O_RDONLY | os.O_NONBLOCK)
            try:
                to = self.opened(requests)
            except BaseException:
                os.close(back)
                raise
            os.set_blocking(back, True)
            self.connections.append(Connection(to, back))
        for connection in self.connections:
            if not connection.greets():
                raise Ended
        return self.connections

    def opened(self, path):
        """Opens the writing end of a pipe as soon as the program has opened the reading end."""
        end = time.monotonic() + PATIENCE
        while time.monotonic() < end:
            try:
                return os.open(path, os.O_WRONLY | os.O_NONBLOCK)
            except OSError as error:
                if error.errno != errno.ENXIO:
                    raise
            if self.process.poll() is not None:
                raise Ended
            time.sleep(0.001)
        raise TimeoutError(f"{path.name} is not opened")

    def peak(self):
        """Returns the peak of the program's memory, in KiB."""
        lines = pathlib.Path(f"/proc/{self.process.pid}/status").read_text().splitlines()
        return next(int(line.split()[1]) for line in lines if line.startswith("VmHWM"))

    def waits(self):
        """Returns the state of each thread of the program, and the call of the system in which it waits."""
        tasks = sorted(pathlib.Path(f"/proc/{self.process.pid}/task").glob("*"))
        return ", ".join(f"{(task / 'stat').read_text().rsplit(')', 1)[1].split()[0]} {(task / 'wchan').read_text()}" for task in tasks)

    def kills(self):
        """Kills the program, and waits for its end."""
        self.process.send_signal(signal.SIGKILL)
        return self.ends()

    def ends(self):
        """Closes the connections. Returns the program's status and standard error."""
        while self.connections:
            self.connections.pop().closes()
        try:
            _, text = self.process.communicate(timeout=PATIENCE)
        except subprocess.TimeoutExpired:
            waits = self.waits()
            self.process.kill()
            self.process.communicate()
            raise TimeoutError(f"the program does not end: {waits}") from None
        return self.process.returncode, text.decode(errors="replace")
