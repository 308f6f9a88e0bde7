#!/usr/bin/env python3
"""Tests uploads that take long or are abandoned, and chunks whose headers do not match them."""
import threading, time

from playing import LASTING, Asking, calls, every_upload, play, serving_stub, until
from server import serving, sha256

PATCH = {"Content-Type": "application/octet-stream"}
STATUS, APPEND, CLOSE, ABANDON = "2", "3", "4", "5"
MIB = 1 << 20


def opened(client, repo="acme/one"):
    """Opens an upload, and returns its path."""
    answer = client.ask("POST", f"/v2/{repo}/blobs/uploads/")
    assert answer.status == 202, answer.status
    return answer["Location"]


def is_there(client, at):
    return client.ask("GET", at).status == 204


def patched(client, at, data, start=None):
    """Sends a chunk, and returns the status and the range of the response."""
    span = {} if start is None else {"Content-Range": f"{start}-{start + len(data) - 1}"}
    answer = client.ask("PATCH", at, data, {**PATCH, **span})
    return answer.status, answer["Range"]


def closed(client, at, data=b""):
    return client.ask("PUT", f"{at}?digest={sha256(data)}", data, PATCH).status


def an_upload_that_is_being_sent_is_not_given_up():
    """Two uploads take three times as long as an upload may be unused, one in pieces of 1 MiB and one in single bytes."""
    with serving_stub({}, "--session-s", "1") as server:
        statuses = {}
        def send(name, part):
            client = server.client()
            at = opened(client)
            def slowly():
                for _ in range(10):
                    yield part
                    time.sleep(0.3)
            statuses[name] = [client.ask("PATCH", at, slowly(), {**PATCH, "Transfer-Encoding": "chunked"}).status]
            statuses[name].append(client.ask("PUT", f"{at}?digest={sha256(b'')}").status)
        senders = [threading.Thread(target=send, args=case) for case in (("pieces", b"x" * MIB), ("bytes", b"x"))]
        for sender in senders:
            sender.start()
        for sender in senders:
            sender.join()
        assert statuses == {"pieces": [202, 201], "bytes": [202, 201]}, statuses


def an_upload_without_bytes_is_given_up_early():
    with serving_stub({}, "--empty-session-s", "2", "--session-s", "60") as server:
        client = server.client()
        never, cut_off, begun = (opened(client) for _ in range(3))
        line = server.socket()
        line.sendall(f"PATCH {cut_off} HTTP/1.1\r\nHost: x\r\nContent-Length: 1000\r\n\r\n".encode())
        assert client.ask("PATCH", begun, b"x", PATCH).status == 202
        assert server.metric("registryd_uploads") == 3
        line.close()
        assert until(lambda: server.metric("registryd_uploads") == 1), server.metric("registryd_uploads")
        assert [is_there(client, at) for at in (never, cut_off, begun)] == [False, False, True]


def an_upload_that_the_store_does_not_know_is_dropped():
    upload_unknown = 4
    with serving_stub({ABANDON: {"status": upload_unknown}}, "--session-s", "2") as server:
        opened(server.client())
        assert server.metric("registryd_uploads") == 1
        assert until(lambda: server.metric("registryd_uploads") == 0), server.metric("registryd_uploads")


def an_upload_that_the_store_keeps_is_tried_again():
    busy = 18
    with serving_stub({ABANDON: {"status": busy}}, "--session-s", "1") as server:
        client = server.client()
        at = opened(client)
        time.sleep(1.5)
        assert is_there(client, at) and server.metric("registryd_uploads") == 1


def a_range_is_that_of_the_content_in_chunked_coding():
    with serving_stub({}) as server:
        client = server.client()
        at = opened(client)
        chunked = {**PATCH, "Transfer-Encoding": "chunked", "Content-Range": "0-9"}
        for method, path in (("PATCH", at), ("PUT", f"{at}?digest={sha256(b'')}")):
            for data in (b"", b"123456789", b"12345678901"):
                answer = client.ask(method, path, iter([data] if data else []), chunked)
                assert (answer.status, answer.code()) == (400, "SIZE_INVALID"), (method, data, answer.status)
            assert client.ask("GET", at)["Range"] == "0-0"
        assert client.ask("PATCH", at, iter([b"12345", b"67890"]), chunked)["Range"] == "0-9"
        # If a long one is longer or shorter than its range, the bytes received before are kept, and the upload can be resumed.
        for claimed, sent in ((6 * MIB, 9 * MIB), (9 * MIB, 6 * MIB + 5)):
            at = opened(client)
            long = {**chunked, "Content-Range": f"0-{claimed - 1}"}
            answer = client.ask("PATCH", at, iter([b"x" * MIB] * (sent // MIB) + [b"x" * (sent % MIB)] * (sent % MIB > 0)), long)
            received = int(client.ask("GET", at)["Range"].split("-")[1]) + 1
            assert answer.status == 400 and 0 < received <= min(claimed, sent), (claimed, sent, answer.status, received)
            rest = {**PATCH, "Content-Range": f"{received}-{received + 2}"}
            assert client.ask("PATCH", at, b"abc", rest)["Range"] == f"0-{received + 2}"


def a_range_that_no_content_has_is_refused():
    with serving_stub({}) as server:
        client = server.client()
        at = opened(client)
        for last in (2 ** 64 - 1, 2 ** 63, 2 ** 64, 0):
            for length in ({}, {"Transfer-Encoding": "chunked"}):
                answer = client.ask("PATCH", at, iter([]) if length else b"", {**PATCH, **length, "Content-Range": f"0-{last}"})
                assert answer.status in (400, 416), (last, length, answer.status)
        assert is_there(client, at)


def a_blob_that_is_too_long_is_refused_before_it_is_sent():
    with serving_stub({}, "--max-blob", "1000") as server:
        client = server.client()
        filled, empty = opened(client), opened(client)
        assert client.ask("PATCH", filled, b"x" * 600, PATCH).status == 202
        def refused(request, *headers):
            line = server.socket()
            line.settimeout(5)
            line.sendall("\r\n".join([f"{request} HTTP/1.1", "Host: x", *headers, "\r\n"]).encode())
            answer = line.recv(1000)
            assert answer.startswith(b"HTTP/1.1 413") and b"SIZE_INVALID" in answer, (request, headers, answer)
            line.close()
        for expect in ([], ["Expect: 100-continue"]):
            refused(f"PATCH {empty}", "Content-Length: 1001", *expect)
            refused(f"PATCH {filled}", "Content-Length: 401", *expect)
            refused(f"PUT {filled}?digest={sha256(b'')}", "Content-Length: 401", *expect)
            refused(f"PATCH {empty}", "Transfer-Encoding: chunked", "Content-Range: 0-1000", *expect)
            refused(f"POST /v2/acme/one/blobs/uploads/?digest={sha256(b'')}", "Content-Length: 4611686018427387904", *expect)
        assert client.ask("PATCH", empty, b"x" * 1000, PATCH).status == 202
        assert client.ask("PATCH", filled, b"x" * 400, PATCH).status == 202
        assert server.metric("registryd_uploads") == 2


def chunks_and_closes_do_not_ask_for_the_length():
    with serving_stub({}) as server:
        client = server.client()
        at = opened(client)
        assert [patched(client, at, b"abc"), patched(client, at, b"def", 3)] == [(202, "0-2"), (202, "0-5")]
        assert patched(client, at, b"") == (202, "0-5")
        assert patched(client, at, b"x" * 2 * MIB, 6) == (202, f"0-{2 * MIB + 5}")
        pieces = client.ask("PATCH", at, iter([b"x" * MIB, b"y"]), {**PATCH, "Transfer-Encoding": "chunked"})
        assert (pieces.status, pieces["Range"]) == (202, f"0-{3 * MIB + 6}")
        # Chunks that fail before they are read leave the length known.
        assert client.ask("PATCH", at, b"abc", {**PATCH, "Content-Range": "9-3"}).status == 400
        assert client.ask("PUT", at, b"abc", PATCH).status == 400
        assert closed(client, at) == 201
        assert closed(client, opened(client), b"abc") == 201
        assert closed(client, opened(client), b"x" * 2 * MIB) == 201
        assert client.ask("POST", f"/v2/acme/one/blobs/uploads/?digest={sha256(b'abc')}", b"abc", PATCH).status == 201
        mounted = client.ask("POST", f"/v2/acme/two/blobs/uploads/?mount={sha256(b'x')}&from=acme/one")
        assert (mounted.status, patched(client, mounted["Location"], b"abc")) == (202, (202, "0-2"))
        assert calls(server)[STATUS] == 0, calls(server)


def a_chunk_at_another_place_is_answered_with_the_length_of_the_store():
    with serving_stub({}) as server:
        client = server.client()
        at = opened(client)
        assert patched(client, at, b"abc") == (202, "0-2")
        for start in (0, 2, 4):
            assert patched(client, at, b"def", start) == (416, "0-2"), start
        assert calls(server)[STATUS] == 3 and calls(server)[APPEND] == 1, calls(server)
        assert patched(client, at, b"def", 3) == (202, "0-5")
        assert calls(server)[STATUS] == 3, calls(server)


def a_length_that_is_out_of_date_costs_a_chunk_and_nothing_else():
    """The store's replies to chunks have a wrong length, which the registry keeps."""
    with serving_stub({APPEND: {"first": 1}}) as server:
        client = server.client()
        at = opened(client)
        assert patched(client, at, b"abc") == (202, "0-0")
        assert patched(client, at, b"def") == (416, "0-2")
        assert calls(server)[STATUS] == 0, calls(server)
        # After the failure the store is asked, and the upload continues at the offset that the chunk names.
        assert patched(client, at, b"def")[0] == 202 and calls(server)[STATUS] == 1, calls(server)
        assert patched(client, at, b"ghi", 6)[0] == 202 and calls(server)[STATUS] == 2, calls(server)
        assert client.ask("GET", at)["Range"] == "0-8"
        refused = client.ask("PUT", f"{at}?digest={sha256(b'')}", b"jkl", PATCH)
        assert (refused.status, refused["Range"]) == (416, "0-8")
        assert closed(client, at, b"jkl") == 201


def the_length_is_asked_for_after_a_reply_that_came_too_late():
    with serving_stub({APPEND: {"late": 1.5}}, "--call-s", "1", "--lines", "4") as server:
        client = server.client()
        at = opened(client)
        assert patched(client, at, b"abc")[0] == 503
        before = calls(server)[STATUS]
        assert closed(client, at, b"def") == 201
        assert calls(server)[STATUS] == before + 1, calls(server)


def the_length_is_asked_for_after_a_refusal():
    digest_invalid, quota = 2, 11
    with serving_stub({f"{APPEND} acme/poor": {"status": quota}, f"{CLOSE} acme/one": {"status": digest_invalid}}) as server:
        client = server.client()
        poor, at = opened(client, "acme/poor"), opened(client)
        assert [patched(client, poor, b"abc")[0] for _ in range(2)] == [403, 403]
        assert patched(client, poor, b"") == (202, "0-0")
        assert calls(server)[STATUS] == 2, calls(server)
        assert patched(client, at, b"abc") == (202, "0-2") and closed(client, at, b"def") == 400
        assert patched(client, at, b"def", 3) == (202, "0-5")
        assert calls(server)[STATUS] == 3, calls(server)
        assert patched(client, at, b"ghi") == (202, "0-8")
        assert calls(server)[STATUS] == 3, calls(server)


def a_chunk_that_breaks_off_is_gone_on_with():
    with serving_stub({}) as server:
        client = server.client()
        at = opened(client)
        line = server.socket()
        line.sendall(f"PATCH {at} HTTP/1.1\r\nHost: x\r\nContent-Length: {4 * MIB}\r\n\r\n".encode() + b"x" * (2 * MIB + 5))
        line.close()
        received = 2 * MIB + 5
        assert until(lambda: client.ask("GET", at)["Range"] == f"0-{received - 1}"), client.ask("GET", at)["Range"]
        assert patched(client, at, b"abc", received) == (202, f"0-{received + 2}")
        # The disconnected request may have been in progress until then, so the length is asked for once more.
        assert patched(client, at, b"def") == (202, f"0-{received + 5}")
        before = calls(server)[STATUS]
        assert patched(client, at, b"ghi") == (202, f"0-{received + 8}")
        assert calls(server)[STATUS] == before, calls(server)


def the_length_is_asked_for_while_and_after_two_add_at_once():
    """The store has appended the first chunk before the second arrives, but its reply is late."""
    with serving_stub({APPEND: {"late": 0.6}}) as server:
        client = server.client()
        at = opened(client)
        first = Asking(server, "PATCH", at, b"abc", PATCH)
        assert until(lambda: calls(server)[APPEND] == 1)
        time.sleep(0.1)
        assert patched(client, at, b"def") == (202, "0-5")
        assert first.answered().status == 202 and calls(server)[STATUS] == 1, calls(server)
        assert patched(client, at, b"ghi") == (202, "0-8") and calls(server)[STATUS] == 2, calls(server)
        assert patched(client, at, b"jkl") == (202, "0-11") and calls(server)[STATUS] == 2, calls(server)


def too_many_uploads_may_be_retried():
    """Only uploads that stay open are too many: a mount of a stored blob needs none, and a blob in one request ends its own."""
    with serving() as server:
        client = server.client()
        def post(query, repo="acme/one", data=None):
            return client.ask("POST", f"/v2/{repo}/blobs/uploads/{query}", data, PATCH)
        whole = f"?digest={sha256(b'whole')}"
        assert post(f"?digest={sha256(b'stored')}", data=b"stored").status == 201
        ats = [opened(client) for _ in range(LASTING)]
        mounts = [f"?mount={sha256(b'none')}{source}" for source in ("", "&from=acme/one")]
        for _ in range(20):
            for query in ("", *mounts):
                answer = post(query, "acme/two")
                assert (answer.status, answer.code(), answer["Retry-After"]) == (429, "TOOMANYREQUESTS", "5"), (query, answer.status)
            assert post(whole, data=b"whole").status == 201 and post(whole, "acme/three", b"whole").status == 201
            assert post(f"?digest={sha256(b'other')}", data=b"whole").status == 400
            assert post(f"?mount={sha256(b'stored')}&from=acme/one", "acme/four").status == 201
        # No refused request left an upload, and another tenant has its own.
        assert server.metric("registryd_uploads") == LASTING and opened(client, "other/one")
        assert post("", "acme//two").code() == "NAME_INVALID"
        for at in ats:
            assert client.ask("DELETE", at).status == 204
        with every_upload(server, "acme/one") as ats:
            for query in ("", whole, *mounts):
                answer = post(query, data=b"whole")
                assert (answer.status, answer.code(), answer["Retry-After"]) == (429, "TOOMANYREQUESTS", "5"), (query, answer.status)
            assert post(f"?mount={sha256(b'stored')}&from=acme/one", "acme/five").status == 201
            # An upload that is open goes on.
            assert closed(client, ats[0], b"one") == 201 and post(whole, data=b"whole").status == 201


def main():
    play("uploads", [
        an_upload_that_is_being_sent_is_not_given_up, an_upload_without_bytes_is_given_up_early,
        an_upload_that_the_store_does_not_know_is_dropped, an_upload_that_the_store_keeps_is_tried_again,
        a_range_is_that_of_the_content_in_chunked_coding, a_range_that_no_content_has_is_refused,
        a_blob_that_is_too_long_is_refused_before_it_is_sent, chunks_and_closes_do_not_ask_for_the_length,
        a_chunk_at_another_place_is_answered_with_the_length_of_the_store, a_length_that_is_out_of_date_costs_a_chunk_and_nothing_else,
        the_length_is_asked_for_after_a_reply_that_came_too_late, the_length_is_asked_for_after_a_refusal,
        a_chunk_that_breaks_off_is_gone_on_with, the_length_is_asked_for_while_and_after_two_add_at_once, too_many_uploads_may_be_retried])


if __name__ == "__main__":
    main()
