"""What a loss of power may leave of the files of a database: their bytes as they were at their last syncs, and any part of what was
written later. The library of crates/blobd/crashes/shim.c records each change in full."""
import collections

from crash.paths import common_length

SECTOR = 512

# The greatest number of bytes that a loss of power adds at the end of a file.
MOST_TAIL = 5000

Call = collections.namedtuple("Call", "kind name place count body")


def calls_in(data):
    """Yields the calls that the library has recorded. A kill may cut off the last one."""
    place = 0
    while (end := data.find(b"\n", place)) >= 0:
        kind, *name, number = data[place:end].decode().split(" ")
        place = end + 1
        if kind != "write":
            yield Call(kind, " ".join(name), int(number), 0, b"")
            continue
        name, offset, count = name[0], int(name[1]), int(number)
        if len(data) < place + count:
            return
        yield Call(kind, name, offset, count, data[place:place + count])
        place += count


class File:
    """A file: its bytes at the last sync, and the calls since then."""

    def __init__(self, content=b""):
        self.synced, self.later = bytes(content), []

    def with_calls(self, calls):
        """Returns the bytes after these calls."""
        found = bytearray(self.synced)
        for call in calls:
            if call.kind == "cut":
                found = found[:call.place].ljust(call.place, b"\0")
            else:
                found = found.ljust(call.place, b"\0")
                found[call.place:call.place + len(call.body)] = call.body
        return bytes(found)

    def is_synced(self):
        self.synced, self.later = self.with_calls(self.later), []

    def torn(self, rng, call):
        """Returns calls for the sectors of a write that are on the disk. Some are broken."""
        found = []
        for place in range(0, call.count, SECTOR):
            body = call.body[place:place + SECTOR]
            part = call._replace(place=call.place + place, body=body)
            draw = rng.random()
            if draw < 0.4:
                found.append(part)
            elif draw < 0.5:
                found.append(part._replace(body=bytes(len(body))))
            elif draw < 0.6:
                found.append(part._replace(body=rng.randbytes(len(body))))
        return found

    def lost(self, rng):
        """Returns what a loss of power may leave."""
        if not self.later:
            return self.synced
        manner = rng.choice(["none", "all", "some", "some"])
        calls = [] if manner == "none" else self.later
        if manner == "some":
            calls = []
            for call in self.later:
                draw = rng.random()
                if draw < 0.5:
                    calls.append(call)
                elif draw < 0.75 and call.kind == "write":
                    calls += self.torn(rng, call)
        tail = rng.randint(1, MOST_TAIL)
        return self.with_calls(calls) + rng.choice([b"", b"", bytes(tail), rng.randbytes(tail)])


class Disk:
    """The files of a database. What one run has not synced may be lost in a later one. The file of shared memory has any content after a
    loss of power."""

    def __init__(self):
        self.files, self.unnamed, self.removed = {}, set(), {}

    def runs(self, record, folder):
        """Takes the calls of a run that was killed into account, and removes their record."""
        for call in calls_in(record.read_bytes() if record.exists() else b""):
            if call.name.endswith("-shm"):
                continue
            if call.kind == "sync" and call.name.startswith("/"):
                # the names in the folder are on the disk
                self.unnamed.clear()
                self.removed.clear()
                continue
            if call.kind == "unlink":
                old = self.files.pop(call.name, None)
                if old and call.name not in self.unnamed:
                    self.removed.setdefault(call.name, old)
                self.unnamed.discard(call.name)
                continue
            if call.name not in self.files:
                self.files[call.name] = File()
                self.unnamed.add(call.name)
            if call.kind == "sync":
                self.files[call.name].is_synced()
            else:
                self.files[call.name].later.append(call)
        record.unlink(missing_ok=True)
        for path in folder.glob("registry.db*"):
            if not path.name.endswith("-shm"):
                self.adds(path.name, path.read_bytes())

    def adds(self, name, found):
        """Adds what differs in a file: the kill may have come between a write and its record."""
        if name not in self.files:
            self.files[name] = File()
            self.unnamed.add(name)
        file = self.files[name]
        known = file.with_calls(file.later)
        if len(known) > len(found):
            file.later.append(Call("cut", name, len(found), 0, b""))
        if known[:len(found)] != found:
            known = known.ljust(len(found), b"\0")
            first, last = common_length(known, found), common_length(known[len(found) - 1::-1], found[::-1])
            body = found[first:len(found) - last]
            file.later.append(Call("write", name, first, len(body), body))

    def written(self):
        """Returns the bytes of each file if nothing is lost."""
        return {name: file.with_calls(file.later) for name, file in self.files.items()}

    def loses_power(self, folder, rng):
        """Leaves in the folder what a loss of power may leave, and takes that for synced. Returns the number of bytes that are lost or
        changed."""
        before = self.written()
        files = {name: file for name, file in self.files.items() if name not in self.unnamed or rng.random() < 0.5}
        for name, file in self.removed.items():
            if name not in files and rng.random() < 0.5:
                files[name] = file
        after = {name: file.lost(rng) for name, file in sorted(files.items())}
        for path in folder.glob("registry.db*"):
            path.unlink()
        if rng.random() < 0.3:
            (folder / "registry.db-shm").write_bytes(rng.randbytes(rng.choice([3, 32768])))
        for name, data in after.items():
            (folder / name).write_bytes(data)
        self.files = {name: File(data) for name, data in after.items()}
        self.unnamed, self.removed = set(), {}
        return sum(
            sum(one != other for one, other in zip(data, after.get(name, b""))) + max(0, len(data) - len(after.get(name, b"")))
            for name, data in before.items()
        )
