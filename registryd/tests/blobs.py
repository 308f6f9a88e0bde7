#!/usr/bin/env python3
"""Counts the calls to the store that a GET of a blob makes, for the full content and for ranges, and compares what it sends."""
import email, email.policy, http.client, os, re, resource, time

from hardships import head_of
from playing import calls, play, serving_stub, until
from restarts import folder
from server import serving, sha256

PATCH = {"Content-Type": "application/octet-stream"}
LEASE, READ, GIVE_BACK, STAT, FETCH = "11", "12", "13", "17", "21"
MIB = 1 << 20
# The longest piece that one read of a leased blob returns: it fits into a pipe of 1 MiB with the pages of its head.
PIECE = MIB - (8 << 10)


def pushed(client, data):
    """Pushes a new blob, and returns its path."""
    assert client.ask("POST", f"/v2/acme/one/blobs/uploads/?digest={sha256(data)}", data, PATCH).status == 201
    return f"/v2/acme/one/blobs/{sha256(data)}"


def counts(server):
    """Returns the number of calls of each command that reads blobs, without those never called."""
    return {name: count for name, count in calls(server).items() if name in (LEASE, READ, GIVE_BACK, STAT, FETCH)}


def a_short_blob_takes_one_call():
    with serving_stub({}) as server:
        client = server.client()
        for number, length in enumerate((0, 1, PIECE, PIECE + 1, MIB), 1):
            at = pushed(client, b"x" * length)
            answer = client.ask("GET", at)
            assert (answer.status, answer.body, answer["Content-Length"]) == (200, b"x" * length, str(length)), length
            assert counts(server) == {FETCH: number}, (length, counts(server))


def a_long_blob_takes_a_fetch_in_place_of_a_lease():
    for length in (MIB + 1, 2 * PIECE, 2 * MIB + 3):
        with serving_stub({}) as server:
            client = server.client()
            answer = client.ask("GET", pushed(client, b"x" * length))
            assert (answer.status, answer.body) == (200, b"x" * length), length
            assert until(lambda: GIVE_BACK in counts(server)), "the lease is not given back"
            assert counts(server) == {FETCH: 1, READ: -(-length // PIECE), GIVE_BACK: 1}, (length, counts(server))


def a_short_part_takes_one_call():
    data = bytes(range(256)) * (MIB // 64) + b"the end"
    size = len(data)
    cases = [("0-0", 0, 1), (f"5-{MIB + 4}", 5, MIB + 5), (f"{size - 7}-", size - 7, size), (f"{size - 1}-{size + 9}", size - 1, size),
             (f"{size - 3}-{2 ** 64 - 1}", size - 3, size)]
    with serving_stub({}) as server:
        client = server.client()
        at = pushed(client, data)
        for number, (text, start, end) in enumerate(cases, 1):
            answer = client.ask("GET", at, headers={"Range": f"bytes={text}"})
            assert (answer.status, answer.body) == (206, data[start:end]), (text, answer.status)
            assert answer["Content-Range"] == f"bytes {start}-{end - 1}/{size}", (text, answer["Content-Range"])
            assert counts(server) == {FETCH: number}, (text, counts(server))


def a_part_that_is_not_there_takes_one_call():
    with serving_stub({}) as server:
        client = server.client()
        at = pushed(client, b"abc")
        for number, start in enumerate((3, 2 ** 63 - 1, 2 ** 63, 2 ** 64 - 1), 1):
            answer = client.ask("GET", at, headers={"Range": f"bytes={start}-"})
            assert (answer.status, answer["Content-Range"]) == (416, "bytes */3"), (start, answer.status)
            assert counts(server) == {FETCH: number}, (start, counts(server))


def a_part_whose_place_depends_on_the_size_takes_a_lease():
    with serving_stub({}) as server:
        client = server.client()
        at = pushed(client, b"abcde")
        for text, status, body in (("-2", 206, b"de"), ("-9", 206, b"abcde"), ("-0", 416, None)):
            answer = client.ask("GET", at, headers={"Range": f"bytes={text}"})
            assert answer.status == status and body in (None, answer.body), (text, answer.status)
        assert counts(server) == {LEASE: 3, READ: 2, GIVE_BACK: 3}, counts(server)


def a_part_that_is_not_wanted_is_not_fetched():
    with serving_stub({}) as server:
        client = server.client()
        at = pushed(client, b"abc")
        assert client.ask("GET", at, headers={"If-None-Match": f'"{sha256(b"abc")}"'}).status == 304
        assert client.ask("HEAD", at).status == 200
        assert counts(server) == {STAT: 2}, counts(server)
        answer = client.ask("GET", at, headers={"Range": "bytes=0-0", "If-Range": '"other"'})
        assert (answer.status, answer.body) == (200, b"abc") and counts(server) == {STAT: 2, FETCH: 1}, counts(server)


def a_blob_that_is_not_there_takes_one_call():
    with serving_stub({}) as server:
        answer = server.client().ask("GET", f"/v2/acme/one/blobs/{sha256(b'abc')}")
        assert (answer.status, answer.code()) == (404, "BLOB_UNKNOWN") and counts(server) == {FETCH: 1}, counts(server)


def without_memory_for_a_fetch_the_size_is_asked_for_first():
    """An upload holds so much memory that less than 1 MiB and a few bytes is left for its tenant."""
    with serving_stub({}, "--memory-in-flight", str(8 * MIB)) as server:
        client = server.client()
        at = pushed(client, b"abc")
        line = server.socket()
        line.sendall(head_of("POST", f"acme/one/blobs/uploads/?digest={sha256(b'')}", Content_Length=6 * MIB) + b"x")
        assert until(lambda: calls(server)["1"] == 2), "the upload did not begin"
        assert client.ask("GET", at).body == b"abc"
        assert counts(server) == {LEASE: 1, READ: 1, GIVE_BACK: 1}, counts(server)
        line.close()


def a_fetch_that_came_too_late_leaves_no_lease():
    with serving_stub({FETCH: {"late": 1.5}}, "--call-s", "1", "--lines", "4") as server:
        client = server.client()
        short, long = pushed(client, b"abc"), pushed(client, b"x" * (MIB + 1))
        assert [client.ask("GET", at).status for at in (short, long)] == [503, 503]
        assert until(lambda: GIVE_BACK in counts(server)), "the lease is not given back"
        assert counts(server) == {FETCH: 2, GIVE_BACK: 1}, counts(server)


def a_damaged_content_has_no_wrong_byte():
    """The reply is 500 if no byte was sent. Else the connection ends before the promised length. Both are counted and logged. Then the blob
    is taken for missing by who would not send it otherwise, until it is stored again."""
    unreadable = 253
    with folder() as path, serving_stub({FETCH: {"status": unreadable}}, "--data", path) as server:
        client = server.client()
        at = pushed(client, b"abc")
        answer = client.ask("GET", at)
        assert (answer.status, answer.code()) == (500, "UNSUPPORTED"), answer.status
        assert server.metric("registryd_damaged_reads_total") == 1
        mount = f"/v2/acme/two/blobs/uploads/?mount={sha256(b'abc')}&from=acme/one"
        assert (client.ask("HEAD", at).status, client.ask("POST", mount).status) == (404, 202)
        assert pushed(client, b"abc") == at and client.ask("HEAD", at).status == 200
        line = f"the content is damaged: push it again repository=\"acme/one\" digest=\"{sha256(b'abc')}\""
        assert line in server.logged(), server.logged()
    for after, headers in ((0, {}), (0, {"Range": "bytes=-7"}), (0, {"Range": "bytes=0-0,9-9"}), (1, {}), (2, {})):
        with folder() as path, serving_stub({READ: {"status": unreadable, "after": after}}, "--data", path) as server:
            client, data = server.client(), bytes(range(256)) * (3 * MIB // 256)
            at = pushed(client, data)
            try:
                # Two pieces are read at once, and the second read may be the first one at the store.
                answer = client.ask("GET", at, headers=headers)
                assert after <= 1 and answer.status == 500, (after, headers, answer.status)
            except http.client.IncompleteRead as cut:
                assert after > 0 and data.startswith(cut.partial) and len(cut.partial) <= after * PIECE, (after, len(cut.partial))
            assert until(lambda: counts(server).get(GIVE_BACK) == 1), counts(server)
            assert 1 <= server.metric("registryd_damaged_reads_total") <= 2 and "the content is damaged" in server.logged()


def parts_are_those_of_the_content():
    """Compares ranges of blobs around the maximum length of a fetch with those of the stub and of a real store."""
    with serving() as server:
        client = server.client()
        for size in (0, 3, MIB - 1, MIB, MIB + 1, 3 * MIB):
            data = (b"0123456789" * (size // 10 + 1))[:size]
            at = pushed(client, data)
            assert client.ask("GET", at).body == data, size
            for start, end in ((0, 1), (0, MIB), (1, MIB + 1), (0, MIB + 1), (size - 1, size), (size, size + 1), (2, 2 * size)):
                if 0 <= start < end:
                    answer = client.ask("GET", at, headers={"Range": f"bytes={start}-{end - 1}"})
                    wanted = (206, data[start:end]) if start < size else (416, b"")
                    assert (answer.status, answer.body) == wanted, (size, start, end, answer.status)
            assert client.ask("DELETE", at).status == 202
        assert not server.left(), server.left()


def ranges_of(answer):
    """Returns the ranges and the contents of the parts of a response (RFC 9110, 14.6)."""
    kind, boundary = answer["Content-Type"].split("; boundary=")
    assert (answer.status, kind) == (206, "multipart/byteranges") and answer["Content-Range"] is None, answer.headers
    assert len(answer.body) == int(answer["Content-Length"])
    head = f"Content-Type: {answer['Content-Type']}\r\n\r\n".encode()
    message = email.message_from_bytes(head + answer.body, policy=email.policy.HTTP)
    *pieces, end = answer.body.split(f"\r\n--{boundary}".encode())[1:]
    assert message.is_multipart() and end == b"--\r\n", end
    contents = [piece.split(b"\r\n\r\n", 1)[1] for piece in pieces]
    assert {part.get_content_type() for part in message.get_payload()} == {"application/octet-stream"}
    return [part["Content-Range"] for part in message.get_payload()], contents


def read_by(process):
    """Returns the number of bytes that a process has read (proc(5))."""
    with open(f"/proc/{process}/io") as text:
        return int(re.search(r"^rchar: (\d+)$", text.read(), re.MULTILINE)[1])


def in_chunks(client, data, lengths):
    """Uploads a blob in chunks of these lengths, of which the last one has the rest, and returns its path."""
    at, place = client.ask("POST", "/v2/acme/one/blobs/uploads/", b"")["Location"], 0
    for length in lengths:
        answer = client.ask("PATCH", at, data[place:place + length], PATCH)
        assert answer.status == 202, answer.status
        at, place = answer["Location"], place + length
    assert client.ask("PUT", f"{at}{'&' if '?' in at else '?'}digest={sha256(data)}", data[place:], PATCH).status == 201
    return f"/v2/acme/one/blobs/{sha256(data)}"


# The lengths of chunks whose content is in memory first, and then has pieces of all kinds.
CHUNKS = 3, 10_000, 9000, 2 * MIB + 5, MIB, 7


def a_long_blob_is_read_from_its_file():
    """Parts that begin and end before, at and behind the ends of pieces are what was pushed, and the store reads none of it."""
    data = os.urandom(5 * MIB)
    ends = [sum(CHUNKS[:count]) + more for count in range(1, len(CHUNKS) + 1) for more in (-1, 0, 1)]
    # The store numbers tenants in the order of their names.
    tenants = [f"{name}=1000000000" for name in ("zeta", "acme", "a")]
    with folder() as path, serving("--data", path, tenants=tenants) as server:
        client = server.client()
        at, before = in_chunks(client, data, CHUNKS), read_by(server.child())
        assert client.ask("GET", at).body == data
        for start in [0, *ends]:
            for end in (start + MIB + 1, start + 2 * MIB, *(end for end in ends if end > start + MIB), len(data)):
                if start + MIB < end <= len(data):
                    answer = client.ask("GET", at, headers={"Range": f"bytes={start}-{end - 1}"})
                    assert (answer.status, answer.body == data[start:end]) == (206, True), (start, end, answer.status)
        assert read_by(server.child()) - before < MIB, read_by(server.child()) - before


def a_reader_with_little_memory_reads_each_piece_twice():
    """An upload holds so much memory that 128 KiB are left for a reader. The pieces are read for their sums first, and then part by part."""
    data = os.urandom(5 * MIB)
    with folder() as path, serving("--data", path, "--memory-in-flight", str(8 * MIB)) as server:
        client = server.client()
        at = in_chunks(client, data, CHUNKS)
        line = server.socket()
        line.sendall(head_of("POST", f"acme/one/blobs/uploads/?digest={sha256(b'')}", Content_Length=6 * MIB) + b"x")
        time.sleep(1)
        programs = server.process.pid, server.child()
        before = [read_by(program) for program in programs]
        assert client.ask("GET", at).body == data
        own, stores = (read_by(program) - had for program, had in zip(programs, before))
        assert 2 * len(data) - MIB < own < 2 * len(data) + MIB and stores < MIB, (own, stores)
        line.close()


def a_file_that_cannot_be_opened_is_read_by_the_store():
    """So it is with a process that has no descriptor left."""
    data = os.urandom(3 * MIB)
    with folder() as path, serving("--data", path) as server:
        client = server.client()
        at, before = in_chunks(client, data, CHUNKS[:3]), read_by(server.child())
        resource.prlimit(server.process.pid, resource.RLIMIT_NOFILE, (3, 3))
        assert client.ask("GET", at).body == data
        assert read_by(server.child()) - before > 2 * MIB, "the store did not read"


def several_parts_are_sent_together():
    """With a boundary that the content cannot have by chance. Several reads of a long part and one of a short one take one lease."""
    data = bytes(range(256)) * (MIB // 64) + b"\r\n--the end--\r\n"
    size = len(data)
    cases = [([(0, 1), (5, 9)], "0-0,5-8"), ([(9, 12), (0, 8)], " 9-11 ,\t0-7,"), ([(3, 4), (size - 7, size)], "3-3,-7"),
             ([(1, 2 * PIECE + 4), (2 * PIECE + 4, size)], f"1-{2 * PIECE + 3},{2 * PIECE + 4}-"), ([(0, 1), (7, size)], f"0-0,7-{size + 9},{size}-"),
             ([(2 * at, 2 * at + 1) for at in range(16)], ",".join(f"{2 * at}-{2 * at}" for at in range(16)))]
    with serving_stub({}) as server:
        client = server.client()
        at = pushed(client, data)
        for spans, text in cases:
            before = counts(server)
            answer = client.ask("GET", at, headers={"Range": f"bytes={text}"})
            ranges, contents = ranges_of(answer)
            assert ranges == [f"bytes {start}-{end - 1}/{size}" for start, end in spans], (text, ranges)
            assert contents == [data[start:end] for start, end in spans], text
            assert (answer["ETag"], answer["Docker-Content-Digest"]) == (f'"{sha256(data)}"', sha256(data))
            reads = sum(-(-(end - start) // PIECE) for start, end in spans)
            wanted = {LEASE: 1, READ: reads, GIVE_BACK: 1}
            made = lambda: {name: count - before.get(name, 0) for name, count in counts(server).items() if count > before.get(name, 0)}
            assert until(lambda: made() == wanted), (text, made(), wanted)


def some_ranges_are_one_part_or_all():
    with serving() as server:
        client, data = server.client(), b"0123456789" * 1000
        at = pushed(client, data)
        def got(text, **headers):
            answer = client.ask("GET", at, headers={"Range": f"bytes={text}", **headers})
            return answer.status, answer.body, answer["Content-Range"]
        whole = (200, data, None)
        # Two that overlap, too many, and one that is malformed.
        many = ",".join(f"{2 * at}-{2 * at}" for at in range(17))
        for text in ("0-5,5-9", "0-,-1", "3-4,0-9", many, "0-0,x", "0-0,7-3", ","):
            assert got(text) == whole, text
        assert got("0-0,10000-") == (206, b"0", "bytes 0-0/10000")
        assert got("10000-,20000-") == (416, b"", "bytes */10000")
        assert got("0-0,2-2", **{"If-Range": '"other"'}) == whole
        assert client.ask("HEAD", at, headers={"Range": "bytes=0-0,2-2"})["Content-Length"] == "10000"
        assert client.ask("GET", f"/v2/acme/one/blobs/{sha256(b'none')}", headers={"Range": "bytes=0-0,2-2"}).status == 404
        # A client that leaves gives its lease back.
        long = pushed(client, bytes(8 * MIB))
        for _ in range(3):
            line = server.socket()
            line.sendall(f"GET {long} HTTP/1.1\r\nHost: x\r\nRange: bytes=0-9,100-8000000\r\n\r\n".encode())
            assert line.recv(100).startswith(b"HTTP/1.1 206")
            line.close()
        for path in (at, long):
            assert client.ask("DELETE", path).status == 202
        assert not server.left(), server.left()


def main():
    play("blobs", [
        a_short_blob_takes_one_call, a_long_blob_takes_a_fetch_in_place_of_a_lease, a_short_part_takes_one_call,
        a_part_that_is_not_there_takes_one_call, a_part_whose_place_depends_on_the_size_takes_a_lease,
        a_part_that_is_not_wanted_is_not_fetched, a_blob_that_is_not_there_takes_one_call,
        without_memory_for_a_fetch_the_size_is_asked_for_first, a_fetch_that_came_too_late_leaves_no_lease,
        a_damaged_content_has_no_wrong_byte, parts_are_those_of_the_content, a_long_blob_is_read_from_its_file,
        a_reader_with_little_memory_reads_each_piece_twice, a_file_that_cannot_be_opened_is_read_by_the_store,
        several_parts_are_sent_together, some_ranges_are_one_part_or_all])


if __name__ == "__main__":
    main()
