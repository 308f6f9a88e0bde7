"""Folders of versions that kept all contents in the log: a start moves the long ones into files. The log of such a version is written here by
docs/LOG.md, or by a program of it (--earlier)."""
import random
import re
import struct

from data_folder import LONGEST, MARK, Ended, FolderLog, LogReading, content_files, data_files, framed, log_files, puts_data
from frames import ABANDON, APPEND, CLOSE, DELETE, DELETE_MANIFEST, GREETING, MOUNT, PUT_MANIFEST, REMOVE_REPO, START
from kills import calls_of_start, lose_power
from model import MIB, QUOTA, READS, Client
from room import TENANTS, all_there, all_there_still, clients, compares, counts, ends_well, fault, together
from contents import bytes_of, client_with

HEAD, REQUEST = struct.Struct("<IHHQQ"), struct.Struct("<BBHHHIIQQ")

# The kinds of records, by the command that makes them, and those of notes.
KINDS = {START: 2, APPEND: 3, CLOSE: 4, ABANDON: 5, MOUNT: 6, DELETE: 7, PUT_MANIFEST: 8, DELETE_MANIFEST: 9, REMOVE_REPO: 12}
OPENED, CHUNK, SEALED, DROPPED, CHUNK_NOTED, SEAL_NOTED = 2, 3, 4, 5, 13, 14

# The calls of each client before a conversion, and the most kills in one.
CALLS, KILLS = 120, 24


def record_of(state, step):
    """Returns the record that an earlier version made of the call of a step, in a state."""
    command, _, *lengths, number, count, _, _ = REQUEST.unpack_from(step.request)
    texts, place = [], REQUEST.size
    for length in lengths:
        texts.append(step.request[place:place + length])
        place += length
    body = step.request[place:place + count]
    repository, digest, _ = texts
    if step.kind == READS:
        return b""
    if command in (START, MOUNT) and step.after.following != state.following:
        command, number, digest, body = START, state.following, b"", b""
    name = state.tenant.encode() if command in (APPEND, CLOSE, ABANDON) else repository
    kind = KINDS[command]
    return HEAD.pack(kind, len(name), len(digest), number, len(body)) + name + digest + body


def earlier_records(everybody, calls, rng):
    """Lets clients make calls to an earlier version, which has no other answer than the one they expect. Returns its records."""
    records = []
    for _ in range(calls * len(everybody)):
        client = rng.choice(everybody)
        _, step = client.chosen()
        records.append(record_of(client.state, step))
        client.gone.extend(client.state.names() - step.after.names())
        client.state = step.after
    for client in everybody:
        client.promises_all()
    return [record for record in records if record]


def writes_log(folder, records, rng):
    """Writes a log of these records in a folder: segments of a MiB or so, frames of some records."""
    number, ident, payloads = 1, rng.getrandbits(64), []
    for place, record in enumerate(records):
        if payloads and (rng.random() < 0.3 or len(payloads[-1]) > 100_000):
            payloads.append(b"")
        payloads = payloads or [b""]
        payloads[-1] += record
        is_last = place == len(records) - 1
        if is_last or sum(map(len, payloads)) > MIB:
            # a mark at the end of a closed file
            (folder / f"log.{number}").write_bytes(framed(ident + number & (1 << 64) - 1, [*payloads, b""]))
            number, payloads = number + 1, []


def fills(room, folder, everybody, calls=CALLS):
    """Leaves a folder as an earlier version leaves it after calls of the clients."""
    if room.earlier:
        blobd = room.starts(folder, "--sync", "each", connections=len(everybody), program=room.earlier)
        together(everybody, blobd.opens(), "each", calls)
        for client in everybody:
            client.promises_all()
        ends_well("an earlier version", blobd)
    else:
        writes_log(folder, earlier_records(everybody, calls, room.rng), room.rng)


def records_in(folder):
    """Yields the kind, the name, the number of a session and the body of each record of a log."""
    for path in FolderLog(folder).paths:
        data = path.read_bytes()
        records, place = LogReading(data).records(data), 0
        while place < len(records):
            kind, name, digest, number, body = HEAD.unpack_from(records, place)
            start = place + HEAD.size
            end = start + name + digest + body
            yield kind, records[start:start + name].decode(), number, records[end - body:end]
            place = end


def is_converted(folder):
    """Checks that a log has notes of all contents that are longer than the longest in the log, and of no others."""
    lengths, wrong = {}, []
    for kind, name, number, body in records_in(folder):
        key = name.partition("/")[0], number
        if kind in (CHUNK, SEALED):
            lengths[key] = lengths.get(key, 0) + len(body)
            if lengths[key] > LONGEST:
                wrong.append((kind, key, lengths[key]))
        if kind in (CHUNK_NOTED, SEAL_NOTED):
            lengths[key] = lengths.get(key, 0) + sum(length for length, _ in struct.iter_unpack("<QQ", body))
            if body and lengths[key] <= LONGEST:
                wrong.append((kind, key, lengths[key]))
    compares("the records of contents that are wrong after a conversion", wrong, [])
    compares("the length of the longest content in the log", (folder / "longest").read_text(), f"{LONGEST}\n")


def converted(room):
    """Tests that a start from a folder of an earlier version finds everything, with the long contents in files; that the next start converts
    nothing; and that a start without the file `longest` does no harm."""
    for turn in range(3 * room.long):
        folder, everybody = room.fresh(), clients(room)
        fills(room, folder, everybody, CALLS * (turn + 1))
        segments = len(FolderLog(folder).paths)
        all_there_still(room, folder, everybody)
        is_converted(folder)
        compares("whether it is a base", FolderLog(folder).base is not None, True)
        before, made = log_files(folder), content_files(folder)
        status, out, text = room.runs(folder)
        compares("a start after a conversion", (status, out, re.findall("convert|was written", text)), (0, GREETING, []))
        after = log_files(folder)
        compares("the files of the log after it", sorted(after), sorted(before))
        compares("the bytes of the log after it", all(after[name].startswith(data) and len(after[name]) <= len(data) + 2 * MARK for name, data in before.items()), True)
        compares("the files of contents after it", content_files(folder) == made, True)
        (folder / "longest").unlink()
        all_there_still(room, folder, everybody)
        is_converted(folder)
        # what is pushed afterwards is there as well
        blobd = room.starts(folder, connections=len(everybody))
        together(everybody, blobd.opens(), "closes", 30)
        for client in everybody:
            client.promises_all()
        ends_well("a program after a conversion", blobd)
        all_there(room, folder, everybody)
    compares("whether a log of several segments was converted", segments > 1, True)


def small_folder(room):
    """Leaves a small folder of an earlier version: contents around the longest in the log, and longer ones, some pushed twice, deleted, abandoned or
    open. Returns it, and the clients."""
    folder = room.fresh()
    everybody = [Client(tenant, random.Random(number)) for number, tenant in enumerate(TENANTS[:2])]
    client, other = everybody
    records = []

    def plays(one, make):
        step = make(one.state)
        records.append(record_of(one.state, step))
        one.state = step.after

    def uploads(one, repository, *chunks, algorithm="sha256"):
        number = one.state.following
        plays(one, lambda state: state.starts(repository))
        for chunk in filter(None, chunks[:-1]):
            plays(one, lambda state: state.appends(number, chunk))
        plays(one, lambda state: state.closes(number, chunks[-1], algorithm))
        return list(one.state.links)[-1]

    for length in (0, LONGEST - 1, LONGEST, LONGEST + 1):
        uploads(client, "t0/one", bytes_of(length, length))
        uploads(other, "t1/one", bytes_of(length, length)[:9000], bytes_of(length, length)[9000:])
    uploads(client, "t0/one", bytes_of(1, 10_000), bytes_of(2, 10_000), bytes_of(3, 2 * MIB + 5), b"")
    uploads(client, "t0/one", bytes_of(4, 10_000), bytes_of(5, 10_000), algorithm="sha512")
    gone = uploads(client, "t0/two", bytes_of(6, 300_000))
    plays(client, lambda state: state.deletes(*gone))
    uploads(other, "t1/two", bytes_of(6, 300_000))
    plays(client, lambda state: state.starts("t0/one"))
    plays(client, lambda state: state.appends(client.state.following - 1, bytes_of(7, 50_000)))
    plays(client, lambda state: state.abandons(client.state.following - 1))
    for one, chunks in ((client, (100,)), (client, (LONGEST,)), (client, (LONGEST, 1, MIB + 7)), (other, (9000, 9000, 100_000))):
        plays(one, lambda state: state.starts(f"{one.tenant}/one"))
        for length in chunks:
            plays(one, lambda state: state.appends(one.state.following - 1, bytes_of(length, length)))
    for one in everybody:
        one.promises_all()
    writes_log(folder, records, room.rng)
    return folder, everybody


def interrupted_conversion(room):
    """Kills starts that convert, after each of their calls, and takes the power away from them. Everything is there afterwards, and converted."""
    folder, everybody = small_folder(room)
    files, states = data_files(folder), [client.state for client in everybody]
    calls = calls_of_start(room, folder)
    kinds = {call for call, name in calls if "contents" in name}
    compares("the kinds of calls on contents in a conversion", kinds >= {"create", "write", "sync", "mkdir"}, True)
    compares("the last rename of a conversion", ("rename", "longest.new") in calls, True)
    steps = range(1, len(calls) + 1)
    if len(steps) > KILLS * room.long:
        # all of the last ones, by which the files take the place of the old log, and some of the others
        steps = sorted(room.rng.sample(steps[:-14], KILLS * room.long - 14)) + list(steps[-14:])
    for step in steps:
        puts_data(folder, files)
        blobd = room.starts(folder, settings={**room.traced(), "CRASH_KILL": str(step)})
        try:
            blobd.opens()
        except Ended:
            pass
        blobd.kills()
        counts["kills"] += 1
        if room.rng.random() < 0.6:
            lose_power(room, folder, files)
        all_there(room, folder, [client_with(state) for state in states])
        is_converted(folder)


def failing_conversion(room):
    """Lets calls fail while a start converts. It ends with a status for the operator, or serves; the next start has everything."""
    folder, everybody = small_folder(room)
    files, states = data_files(folder), [client.state for client in everybody]
    for kind, numbers in {
        "CRASH_FAIL_CONTENT_WRITE": (1, 2, 7), "CRASH_FAIL_CONTENT_SYNC": (1, 2, 7), "CRASH_FAIL_WRITE": (1, 2, 3, 4, 5), "CRASH_FAIL_SYNC": (1, 2, 3, 4, 5),
        "CRASH_FAIL_LONGEST_SYNC": (1,), "CRASH_FAIL_LONGEST_WRITE": (1,), "CRASH_FAIL_FOLDER_SYNC": (1, 2, 3, 4, 5, 6), "CRASH_FAIL_REMOVE": (1, 2),
    }.items():
        for number in numbers:
            puts_data(folder, files)
            blobd = room.starts(folder, settings={**room.traced(), kind: str(number)})
            try:
                blobd.opens()
            except Ended:
                pass
            status, text = blobd.ends()
            compares(f"the status of a conversion with {kind}={number}, {text!r}", status in (0, 6, 9), True)
            if "CONTENT" in kind:
                compares(f"a conversion with {kind}={number}, {text!r}", (status, bool(re.search(rf"{folder}.*/contents/t[01]/\d+", text))), (6, True))
            if status:
                lose_power(room, folder, files)
            all_there(room, folder, [client_with(state) for state in states])
            is_converted(folder)


def conversion_settings(room):
    """Tests a conversion without a tenant that has contents: it ends with status 10, and nothing is lost. The start with the tenant finds everything."""
    folder, everybody = small_folder(room)
    for _ in range(2):
        found = room.runs(folder, tenants={"t0": QUOTA, "t2": QUOTA})
        compares("the status of a conversion without a tenant", (found[0], found[1]), (10, b""))
        compares(f"whether {found[2]!r} names the tenant", "t1" in found[2], True)
    all_there(room, folder, everybody)
    is_converted(folder)
    folder, everybody = small_folder(room)
    found = room.runs(folder, most=MIB)
    compares("the status of a conversion with a smaller limit", (found[0], found[1]), (10, b""))
    all_there(room, folder, everybody)
    is_converted(folder)
    if not any(len(data) > LONGEST for client in everybody for _, data in client.state.sessions.values()):
        fault("no upload was open at a conversion")
