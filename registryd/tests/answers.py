#!/usr/bin/env python3
"""Tests rarely used names, limits, methods, conditions, codings and expectations of requests, and their log lines."""
import contextlib, json, re, subprocess

from playing import LASTING, Asking, play, serving_stub, until
from server import MANIFEST, manifest_of, serving, sha256

PATCH = {"Content-Type": "application/octet-stream"}
KIND = {"Content-Type": MANIFEST}


def every_valid_name_can_be_used(server):
    """Plays each flow in repositories with names like the parts of the paths (OCI Distribution Specification 1.1)."""
    client = server.client()
    for name in ("manifests", "blobs", "blobs/uploads", "tags/list", "tags", "v2", "manifests/blobs/uploads/manifests"):
        base = f"/v2/acme/{name}"
        body = manifest_of(b"{}", [])
        def ask(method, path, status, *words):
            answer = client.ask(method, f"{base}/{path}" if not path.startswith("/") else path, *words)
            assert answer.status == status, (method, name, path, answer.status, answer.body[:200])
            return answer
        assert ask("POST", f"blobs/uploads/?digest={sha256(b'{}')}", 201, b"{}", PATCH)["Location"] == f"{base}/blobs/{sha256(b'{}')}"
        at = ask("POST", "blobs/uploads/", 202)["Location"]
        ask("PATCH", at, 202, b"abc", PATCH)
        ask("GET", at, 204)
        ask("PUT", f"{at}?digest={sha256(b'abc')}", 201)
        assert ask("GET", f"blobs/{sha256(b'abc')}", 200).body == b"abc"
        ask("PUT", "manifests/list", 201, body, KIND)
        assert ask("GET", "manifests/list", 200).body == body
        assert json.loads(ask("GET", "tags/list", 200).body) == {"name": f"acme/{name}", "tags": ["list"]}
        ask("DELETE", f"manifests/{sha256(body)}", 202)
        ask("DELETE", f"blobs/{sha256(b'abc')}", 202)


def paths_are_decoded_once(server):
    client = server.client()
    assert client.ask("POST", f"/v2/acme/coded/blobs/uploads/?digest={sha256(b'abc')}", b"abc", PATCH).status == 201
    coded = sha256(b"abc").replace(":", "%3A")
    for path in (f"/v2/acme/coded/blobs/{coded}", f"/v2/acme%2Fcoded/blobs/{coded.lower()}", f"/v2/%61cme/coded/blobs/{sha256(b'abc')}"):
        answer = client.ask("GET", path)
        assert (answer.status, answer.body) == (200, b"abc"), (path, answer.status)
    twice = client.ask("GET", f"/v2/acme%252Fcoded/blobs/{sha256(b'abc')}")
    assert (twice.status, twice.code()) == (400, "NAME_INVALID"), twice.status
    assert client.ask("GET", f"/v2/acme/%ff/blobs/{sha256(b'abc')}").status == 404


def asked(server, *lines, body=b""):
    """Sends a request on a connection of its own, and returns the status, the header's lines, and whether the connection ended."""
    with contextlib.closing(server.socket()) as line:
        line.sendall("\r\n".join([*lines, "Host: x", "", ""]).encode() + body)
        line.settimeout(3)
        received = b""
        with contextlib.suppress(TimeoutError):
            while part := line.recv(10_000):
                received += part
            return int(received.split()[1]), received.lower(), True
        return int(received.split()[1]), received.lower(), False


def the_end_of_a_content_is_certain():
    """RFC 9112, 6.1."""
    with serving() as server:
        at = server.client().ask("POST", "/v2/acme/one/blobs/uploads/")["Location"]
        chunked, chunk = "Transfer-Encoding: chunked", b"3\r\nabc\r\n0\r\n\r\n"
        for lines in (["Content-Length: 5", chunked], [chunked, "CONTENT-length:5"], [chunked, "X: y", "Content-Length: 0"]):
            status, received, has_ended = asked(server, f"PATCH {at} HTTP/1.1", *lines, body=chunk)
            assert status == 202 and b"connection: close" in received and has_ended, (lines, received)
        assert asked(server, f"PATCH {at} HTTP/1.1", chunked, body=chunk)[::2] == (202, False)
        for codings in (["Transfer-Encoding: gzip, chunked"], ["Transfer-Encoding: gzip", chunked]):
            status, received, has_ended = asked(server, f"PATCH {at} HTTP/1.1", *codings, body=chunk)
            assert status == 501 and has_ended, received
        assert server.client().ask("GET", at)["Range"] == "0-11"
        # A client that sends one after the other keeps its connection.
        client = server.client()
        client.ask("GET", "/v2/")
        before = client.connection.sock
        for _ in range(20):
            assert client.ask("POST", "/v2/acme/two/blobs/uploads/", b"").status == 202
            assert client.ask("PATCH", at, iter([b"abc"]), {**PATCH, "Transfer-Encoding": "chunked"}).status == 202
        assert client.connection.sock is before
        for expected, status in (("nonsense", 417), ("100-continue, nonsense", 417), ("100-Continue", 100)):
            got = asked(server, f"PATCH {at} HTTP/1.1", "Content-Length: 3", f"Expect: {expected}", body=b"abc")
            assert got[0] == status, (expected, got)


def a_condition_that_fails_is_412():
    """RFC 9110, 13.1.1. A push to a tag is made only if the tag names what the client believes."""
    with serving() as server:
        client, config, data = server.client(), b"{}", b"blob"
        for content in (config, data):
            assert client.ask("POST", f"/v2/acme/one/blobs/uploads/?digest={sha256(content)}", content, PATCH).status == 201
        one, two = manifest_of(config, []), manifest_of(config, [data])
        at, blob = "/v2/acme/one/manifests/v1", f"/v2/acme/one/blobs/{sha256(data)}"
        def put(body, match):
            return client.ask("PUT", at, body, {**KIND, "If-Match": match}).status
        tag = lambda body: f'"{sha256(body)}"'
        assert (put(one, "*"), client.ask("PUT", at, one, KIND).status) == (412, 201)
        assert (put(two, tag(two)), put(two, "W/" + tag(one)), put(two, f'"x", {tag(one)}'), put(one, "*")) == (412, 412, 201, 201)
        for path, body in ((at, one), (f"/v2/acme/one/manifests/{sha256(one)}", one), (blob, data)):
            for method in ("GET", "HEAD", "DELETE"):
                answer = client.ask(method, path, headers={"If-Match": '"x"'})
                assert answer.status == 412, (method, path, answer.status)
            for match in ("*", tag(body), f'"x", {tag(body)}'):
                answer = client.ask("GET", path, headers={"If-Match": match})
                assert (answer.status, answer.body) == (200, body), (match, path, answer.status)
        # What is not there is 404, whatever the condition.
        for path in ("/v2/acme/one/manifests/v2", f"/v2/acme/one/blobs/{sha256(b'none')}"):
            for method in ("GET", "DELETE"):
                assert client.ask(method, path, headers={"If-Match": '"x"'}).status == 404, (method, path)
        assert client.ask("DELETE", at, headers={"If-Match": tag(one)}).status == 202
        # Of several pushes that want to replace the same manifest, one succeeds.
        assert client.ask("PUT", at, one, KIND).status == 201
        index = lambda number: b'{"schemaVersion":2,"manifests":[],"annotations":{"n":"%d"}}' % number
        pushes = [Asking(server, "PUT", at, index(number), {"If-Match": tag(one)}) for number in range(8)]
        assert sorted(push.answered().status for push in pushes) == [201] + [412] * 7


def a_missing_tenant_is_named():
    with serving() as server:
        for path, word in (("tags/list", b"no such tenant: nobody"), ("manifests/v1", b"no such tenant: nobody"),
                           (f"manifests/{sha256(b'x')}", b"no such tenant"), (f"blobs/{sha256(b'x')}", b"no such tenant")):
            answer = server.client().ask("GET", f"/v2/nobody/x/{path}")
            assert answer.status == 404 and answer.code() == "NAME_UNKNOWN" and word in answer.body, (path, answer.body)
        answer = server.client().ask("GET", "/v2/acme/x/tags/list")
        assert answer.status == 404 and b"the repository has no manifests" in answer.body, answer.body


def a_log_line_is_bounded():
    with serving() as server:
        for method, path in (("GET", "/" + "x" * 60_000), ("X" * 5_000, "/v2/"), ("GET", "/v2/acme/" + "%C3%A4" * 5_000 + "/tags/list")):
            before = len(server.logged())
            assert server.client().ask(method, path).status >= 400
            assert until(lambda: re.search(r"status=\d+ .*micros=\d+\n", server.logged()[before:])), server.logged()[before:][-300:]
            assert len(server.logged()) - before < 1_500, (method[:9], path[:9], len(server.logged()) - before)


def each_limit_is_named():
    """Reaches each limit of docs/SEMANTICS.md that a tenant can reach, and checks its name in the response."""
    words = ("--slots", "8", "--sweep-ms", "1000000", "--repositories", "5", "--repository-manifests", "7")
    with serving(*words, tenants=["acme=1000000", "other=1000000"]) as server:
        client = server.client()
        def refused(answer, status, code, limit, most, word):
            reported = json.loads(answer.body)["errors"][0]
            assert (answer.status, reported["code"], reported["detail"]) == (status, code, {"limit": limit, "most": most}), (answer.status, reported)
            assert word in reported["message"] and str(most) in reported["message"], reported
        opened = [client.ask("POST", "/v2/acme/one/blobs/uploads/") for _ in range(LASTING)]
        assert {answer.status for answer in opened} == {202}
        too_many = (429, "TOOMANYREQUESTS", "uploads", LASTING, "acme")
        refused(client.ask("POST", "/v2/acme/one/blobs/uploads/"), *too_many)
        refused(client.ask("POST", f"/v2/acme/one/blobs/uploads/?mount={sha256(b'no')}"), *too_many)
        assert client.ask("DELETE", opened[0]["Location"]).status == 204
        assert client.ask("POST", f"/v2/acme/one/blobs/uploads/?digest={sha256(b'{}')}", b"{}", PATCH).status == 201
        for number in range(4):
            answer = client.ask("POST", f"/v2/acme/r{number}/blobs/uploads/?mount={sha256(b'{}')}")
            assert answer.status == 201, (number, answer.status)
        denied = (403, "DENIED", "repositories", 5, "acme")
        refused(client.ask("POST", f"/v2/acme/more/blobs/uploads/?mount={sha256(b'{}')}"), *denied)
        refused(client.ask("POST", "/v2/acme/more/blobs/uploads/"), *denied)
        index = lambda number: b'{"schemaVersion":2,"manifests":[],"annotations":{"n":"%d"}}' % number
        refused(client.ask("PUT", "/v2/acme/more/manifests/v1", index(0)), *denied)
        assert client.ask("POST", "/v2/acme/one/blobs/uploads/").status == 202
        for number in range(7):
            answer = client.ask("PUT", f"/v2/other/one/manifests/{sha256(index(number))}", index(number))
            assert answer.status == 201, (number, answer.status, answer.body[:200])
        refused(client.ask("PUT", "/v2/other/one/manifests/v1", index(7)), 403, "DENIED", "manifests", 7, "other/one")
        assert client.ask("DELETE", f"/v2/other/one/manifests/{sha256(index(0))}").status == 202
        assert client.ask("PUT", "/v2/other/one/manifests/v1", index(7)).status == 201


def unsupported_methods_are_rejected():
    """Checks that a 405 lists the methods of the path in Allow (RFC 9110, 15.5.6)."""
    some = "5bd5e3a4-0c7b-4a79-b7a6-d5ae4cd1b3a5"
    cases = {"/v2/": "GET, HEAD", "/v2/acme/one/tags/list": "GET, HEAD", "/v2/_catalog": "GET, HEAD",
             f"/v2/acme/one/referrers/{sha256(b'')}": "GET, HEAD", "/v2/acme/one/manifests/v1": "GET, HEAD, PUT, DELETE",
             f"/v2/acme/one/blobs/{sha256(b'')}": "GET, HEAD, DELETE", "/v2/acme/one/blobs/uploads/": "POST",
             f"/v2/acme/one/blobs/uploads/{some}": "GET, PATCH, PUT, DELETE"}
    with serving_stub({}) as server:
        client = server.client()
        for path, methods in cases.items():
            for method in ("GET", "HEAD", "POST", "PUT", "PATCH", "DELETE", "OPTIONS", "LINK"):
                answer = client.ask(method, path)
                if method in methods.split(", "):
                    assert answer.status != 405, (method, path)
                else:
                    assert (answer.status, answer["Allow"]) == (405, methods), (method, path, answer.status, answer["Allow"])


def content_that_a_client_has_is_not_sent_again(server):
    """Checks If-None-Match and If-Range (RFC 9110, 13.1.2 and 13.1.5)."""
    client, body = server.client(), manifest_of(b"{}", [])
    for data in (b"{}", b"abcdef"):
        assert client.ask("POST", f"/v2/acme/etags/blobs/uploads/?digest={sha256(data)}", data, PATCH).status == 201
    assert client.ask("PUT", "/v2/acme/etags/manifests/v1", body, KIND).status == 201
    for path, data in ((f"blobs/{sha256(b'abcdef')}", b"abcdef"), ("manifests/v1", body), (f"manifests/{sha256(body)}", body)):
        tag, path = f'"{sha256(data)}"', f"/v2/acme/etags/{path}"
        for method in ("GET", "HEAD"):
            ask = lambda condition, **more: client.ask(method, path, None, {"If-None-Match": condition, **more})
            for condition in (tag, f"W/{tag}", f'"x", {tag}', "*"):
                answer = ask(condition)
                assert (answer.status, answer.body, answer["ETag"]) == (304, b"", tag), (method, path, condition, answer.status)
            answer = ask(f'"{sha256(b"other")}"')
            assert (answer.status, answer["ETag"], answer["Content-Length"]) == (200, tag, str(len(data))), (method, path, answer.status)
    missing = client.ask("GET", f"/v2/acme/etags/blobs/{sha256(b'none')}", None, {"If-None-Match": "*"})
    assert missing.status == 404, missing.status
    blob, part = f"/v2/acme/etags/blobs/{sha256(b'abcdef')}", {"Range": "bytes=1-2"}
    assert client.ask("GET", blob, None, {**part, "If-Range": f'"{sha256(b"abcdef")}"'}).body == b"bc"
    assert client.ask("GET", blob, None, {**part, "If-Range": f'"{sha256(b"other")}"'}).body == b"abcdef"


def bad_tenants_are_named():
    from server import BLOBD, REGISTRYD
    for words, named in ((["acme=1", "Acme=1"], "Acme=1"), (["acme=1", "b=1125899906842625"], "b=1125899906842625"),
                         (["a=1", "b"], "b"), (["a=1", "b=x"], "b=x"), (["a=1", "b=2", "a=3"], "a=3")):
        ended = subprocess.run([REGISTRYD, "--listen", "127.0.0.1:0", "--blobd", BLOBD, *words], stderr=subprocess.PIPE, text=True, timeout=60)
        assert ended.returncode == 2 and f"`{named}`" in ended.stderr, (words, ended)


def main():
    with serving("--slots", "64") as server:
        play("answers", [
            (every_valid_name_can_be_used, server), (paths_are_decoded_once, server), each_limit_is_named,
            the_end_of_a_content_is_certain, a_condition_that_fails_is_412, a_missing_tenant_is_named, a_log_line_is_bounded,
            unsupported_methods_are_rejected, (content_that_a_client_has_is_not_sent_again, server), bad_tenants_are_named])


if __name__ == "__main__":
    main()
