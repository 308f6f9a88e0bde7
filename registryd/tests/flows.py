#!/usr/bin/env python3
"""Plays every flow of the OCI Distribution Specification 1.1 that the registry supports, one request after the other, and
checks the specified status, headers and code. flows.py [HOST:PORT] plays them on a running registry with the tenants acme,
other, and poor with 1,000,000 bytes. Without an address it starts one."""
import json, os, random, sys, uuid

from server import Client, INDEX, MANIFEST, manifest_of, serving, sha256, sha512

PATCH = {"Content-Type": "application/octet-stream"}

# The greatest number of repositories of a tenant here.
MOST_NAMES = 20


class Flows:
    def __init__(self, address):
        self.client = Client(address)
        self.good, self.wrong = 0, 0

    def play(self, name, method, path, status, body=None, headers=(), code=None, wants=(), content=None):
        """Sends a request, and compares the status, the error's code, headers, and the content of the response."""
        if not path.startswith("/"):
            path = "/v2/" + path
        answer = self.client.ask(method, path, body, headers)
        wrong = []
        if answer.status != status:
            wrong.append(f"status {answer.status} for {status}")
        elif code is not None and answer.code() != code:
            wrong.append(f"code {answer.code()} for {code}")
        wrong += [f"{key}: {answer[key]} for {value}" for key, value in dict(wants).items() if answer[key] != value]
        if content is not None and answer.body != content:
            wrong.append(f"content of {len(answer.body)} bytes: {answer.body[:200]}")
        self.good, self.wrong = self.good + (not wrong), self.wrong + bool(wrong)
        if wrong:
            print(f"WRONG {name}: {method} {path}: {'; '.join(wrong)}; {answer.body[:200]}")
        return answer

    def chunk(self, name, at, data, start, status, **more):
        return self.play(name, "PATCH", at, status, data, {**PATCH, "Content-Range": f"{start}-{start + len(data) - 1}"}, **more)

    def opened(self, repo="acme/one"):
        """Opens an upload, checks that it is named by a UUID, and returns its path."""
        at = self.play("an upload is opened", "POST", f"{repo}/blobs/uploads/", 202, wants={"Range": "0-0"})["Location"]
        base, name = at.rsplit("/", 1)
        if base != f"/v2/{repo}/blobs/uploads" or str(uuid.UUID(name)) != name:
            self.wrong += 1
            print(f"WRONG location of an upload: {at}")
        return at


def blobs(flows):
    play = flows.play
    abc, big = b"abc", random.Random(1).randbytes(3_000_000)
    third = len(big) // 3
    parts = [big[:third], big[third:2 * third], big[2 * third:]]
    play("end-1", "GET", "", 200)
    play("a GET of a blob that isn't there", "GET", f"acme/one/blobs/{sha256(abc)}", 404, code="BLOB_UNKNOWN",
         wants={"Content-Type": "application/json"})
    play("a HEAD of a blob that isn't there", "HEAD", f"acme/one/blobs/{sha256(abc)}", 404)
    at = flows.opened()
    play("end-6: the whole", "PUT", f"{at}?digest={sha256(abc)}", 201, abc, PATCH,
         wants={"Docker-Content-Digest": sha256(abc), "Location": f"/v2/acme/one/blobs/{sha256(abc)}"})
    play("the upload is over", "GET", at, 404, code="BLOB_UPLOAD_UNKNOWN")
    reported = {"Content-Length": "3", "Docker-Content-Digest": sha256(abc)}
    play("end-2", "GET", f"acme/one/blobs/{sha256(abc)}", 200, content=abc, wants=reported)
    play("end-2: HEAD", "HEAD", f"acme/one/blobs/{sha256(abc)}", 200, content=b"", wants=reported)
    play("a part", "GET", f"acme/one/blobs/{sha256(abc)}", 206, headers={"Range": "bytes=1-"}, content=b"bc",
         wants={"Content-Range": "bytes 1-2/3", "Content-Length": "2"})
    play("a part past the end", "GET", f"acme/one/blobs/{sha256(abc)}", 416, headers={"Range": "bytes=9-"},
         wants={"Content-Range": "bytes */3"})
    play("end-4b: in one request", "POST", f"acme/one/blobs/uploads/?digest={sha256(b'one')}", 201, b"one", PATCH)
    play("under another digest", "POST", f"acme/one/blobs/uploads/?digest={sha256(b'two')}", 400, b"one", PATCH, code="DIGEST_INVALID")
    if "WITH_FOLDER" in os.environ:
        play("by SHA-512", "POST", f"acme/one/blobs/uploads/?digest={sha512(big)}", 400, big, PATCH, code="UNSUPPORTED")
    else:
        play("by SHA-512", "POST", f"acme/one/blobs/uploads/?digest={sha512(big)}", 201, big, PATCH)
        play("and back", "GET", f"acme/one/blobs/{sha512(big)}", 200, content=big)
    play("short, by SHA-512", "POST", f"acme/one/blobs/uploads/?digest={sha512(abc)}", 201, abc, PATCH)
    play("and back", "GET", f"acme/one/blobs/{sha512(abc)}", 200, content=abc)
    play("no bytes", "POST", f"acme/one/blobs/uploads/?digest={sha256(b'')}", 201, b"", PATCH)
    play("and back", "GET", f"acme/one/blobs/{sha256(b'')}", 200, content=b"", wants={"Content-Length": "0"})

    at = flows.opened()
    flows.chunk("end-5: a chunk", at, parts[0], 0, 202, wants={"Range": f"0-{third - 1}"})
    flows.chunk("a chunk out of order", at, parts[2], 2 * third, 416, wants={"Range": f"0-{third - 1}"})
    play("a range that isn't the content's", "PATCH", at, 400, b"abc", {**PATCH, "Content-Range": "0-3"}, code="SIZE_INVALID")
    play("a range that is none", "PATCH", at, 400, b"abc", {**PATCH, "Content-Range": "abc"}, code="SIZE_INVALID")
    play("end-13", "GET", at, 204, wants={"Range": f"0-{third - 1}", "Location": at})
    flows.chunk("the next chunk", at, parts[1], third, 202, wants={"Range": f"0-{2 * third - 1}"})
    last = {**PATCH, "Content-Range": f"{2 * third}-{len(big) - 1}"}
    play("closed under another digest", "PUT", f"{at}?digest={sha256(abc)}", 400, parts[2], last, code="DIGEST_INVALID")
    play("closed under none", "PUT", at, 400, parts[2], last, code="DIGEST_INVALID")
    play("the upload is as before", "GET", at, 204, wants={"Range": f"0-{2 * third - 1}"})
    play("end-6: the last chunk", "PUT", f"{at}?digest={sha256(big)}", 201, parts[2], last)
    play("the bytes are the same", "GET", f"acme/one/blobs/{sha256(big)}", 200, content=big)

    at = flows.opened()
    play("in chunked coding", "PATCH", at, 202, iter(parts), {**PATCH, "Transfer-Encoding": "chunked"}, wants={"Range": f"0-{len(big) - 1}"})
    play("closed without content", "PUT", f"{at}?digest={sha256(big)}", 201)
    at = flows.opened()
    play("end-14", "DELETE", at, 204)
    play("it is gone", "GET", at, 404, code="BLOB_UPLOAD_UNKNOWN")
    at = flows.opened()
    play("of another repository", "GET", at.replace("/one/", "/two/"), 404, code="BLOB_UPLOAD_UNKNOWN")
    play("a name that is no UUID", "GET", "acme/one/blobs/uploads/1", 404, code="BLOB_UPLOAD_UNKNOWN")
    play("abandoned", "DELETE", at, 204)

    play("end-11", "POST", f"acme/two/blobs/uploads/?mount={sha256(big)}&from=acme/one", 201,
         wants={"Location": f"/v2/acme/two/blobs/{sha256(big)}"})
    play("it is there", "HEAD", f"acme/two/blobs/{sha256(big)}", 200, wants={"Content-Length": str(len(big))})
    play("from where it isn't", "POST", f"acme/two/blobs/uploads/?mount={sha256(abc)}&from=acme/none", 202)
    play("from anywhere", "POST", f"acme/three/blobs/uploads/?mount={sha256(abc)}", 201)
    play("from another tenant", "POST", f"other/x/blobs/uploads/?mount={sha256(abc)}&from=acme/one", 202)
    play("percent-encoded", "POST", f"acme/four/blobs/uploads/?mount={sha256(abc).replace(':', '%3A')}&from=acme%2Fone", 201)


def manifests(flows):
    play, abc, config, kind = flows.play, b"abc", b"{}", {"Content-Type": MANIFEST}
    bytes_ = manifest_of(config, [abc])
    digest = sha256(bytes_)
    play("a config that isn't there", "PUT", "acme/one/manifests/v1", 404, bytes_, kind, code="MANIFEST_BLOB_UNKNOWN")
    play("the config", "POST", f"acme/one/blobs/uploads/?digest={sha256(config)}", 201, config, PATCH)
    play("end-7: by tag", "PUT", "acme/one/manifests/v1", 201, bytes_, kind,
         wants={"Docker-Content-Digest": digest, "Location": f"/v2/acme/one/manifests/{digest}"})
    play("end-7: by digest", "PUT", f"acme/one/manifests/{digest}", 201, bytes_, kind)
    play("by another digest", "PUT", f"acme/one/manifests/{sha256(abc)}", 400, bytes_, kind, code="DIGEST_INVALID")
    play("by no tag", "PUT", "acme/one/manifests/.v1", 400, bytes_, kind, code="MANIFEST_INVALID")
    play("end-3: by tag", "GET", "acme/one/manifests/v1", 200, content=bytes_, wants={"Content-Type": MANIFEST, "Docker-Content-Digest": digest})
    play("end-3: HEAD by digest", "HEAD", f"acme/one/manifests/{digest}", 200, content=b"",
         wants={"Content-Length": str(len(bytes_)), "Docker-Content-Digest": digest})
    play("no such tag", "GET", "acme/one/manifests/v9", 404, code="MANIFEST_UNKNOWN")
    play("no such manifest", "GET", f"acme/one/manifests/{sha256(abc)}", 404, code="MANIFEST_UNKNOWN")
    for tag in ("v4", "v2", "v3"):
        play("a tag", "PUT", f"acme/one/manifests/{tag}", 201, bytes_, kind)
    play("end-8a", "GET", "acme/one/tags/list", 200, content=b'{"name":"acme/one","tags":["v1","v2","v3","v4"]}\n')
    play("end-8b", "GET", "acme/one/tags/list?n=2", 200, content=b'{"name":"acme/one","tags":["v1","v2"]}\n',
         wants={"Link": '</v2/acme/one/tags/list?n=2&last=v2>; rel="next"'})
    play("end-8b: the next", "GET", "acme/one/tags/list?n=2&last=v2", 200, content=b'{"name":"acme/one","tags":["v3","v4"]}\n', wants={"Link": None})
    play("tags of no repository", "GET", "acme/none/tags/list", 404, code="NAME_UNKNOWN")
    play("end-9: a tag", "DELETE", "acme/one/manifests/v4", 202)
    play("it is gone, and the manifest isn't", "GET", "acme/one/tags/list", 200, content=b'{"name":"acme/one","tags":["v1","v2","v3"]}\n')
    play("a blob that a manifest refers to", "DELETE", f"acme/one/blobs/{sha256(abc)}", 403, code="DENIED")
    play("end-9", "DELETE", f"acme/one/manifests/{digest}", 202)
    play("its tags are gone", "GET", "acme/one/manifests/v1", 404, code="MANIFEST_UNKNOWN")
    play("once more", "DELETE", f"acme/one/manifests/{digest}", 404, code="MANIFEST_UNKNOWN")
    play("end-10", "DELETE", f"acme/one/blobs/{sha256(abc)}", 202)
    play("it is gone", "GET", f"acme/one/blobs/{sha256(abc)}", 404, code="BLOB_UNKNOWN")
    play("but not where it was mounted", "GET", f"acme/three/blobs/{sha256(abc)}", 200, content=abc)


def names(flows):
    """An empty repository is removed, so more names than a tenant may have at once can be used one after the other. With a
    folder each request waits for the disk, so it is only a few."""
    play, one, kind = flows.play, b"one", {"Content-Type": INDEX}
    index = b'{"schemaVersion":2,"manifests":[]}'
    opening, blob = f"blobs/uploads/?digest={sha256(one)}", f"blobs/{sha256(one)}"
    numbers = range(6 if "WITH_FOLDER" in os.environ else MOST_NAMES + 6)

    def count():
        tenants = json.loads(flows.client.ask("GET", "/status").body)["tenants"]
        return next(tenant["repositories"] for tenant in tenants if tenant["name"] == "poor")

    def counts(name, wanted):
        found = count()
        flows.good, flows.wrong = flows.good + (found == wanted), flows.wrong + (found != wanted)
        if found != wanted:
            print(f"WRONG {name}: {found} repositories for {wanted}")

    before = count()
    for number in numbers:
        play("a blob of a new name", "POST", f"poor/n{number}/{opening}", 201, one, PATCH)
        play("the last blob of a name", "DELETE", f"poor/n{number}/{blob}", 202)
    counts("after deletes of blobs", before)
    for number in numbers:
        play("the upload of a new name", "DELETE", flows.opened(f"poor/u{number}"), 204)
    counts("after deletes of uploads", before)
    play("an index alone", "PUT", f"poor/kept/manifests/{sha256(index)}", 201, index, kind)
    play("a blob", "POST", f"poor/kept/{opening}", 201, one, PATCH)
    upload = flows.opened("poor/kept")
    play("a manifest and an upload are left", "DELETE", f"poor/kept/{blob}", 202)
    counts("with a manifest and an upload", before + 1)
    play("an upload is left", "DELETE", f"poor/kept/manifests/{sha256(index)}", 202)
    counts("with an upload", before + 1)
    play("a blob again", "POST", f"poor/kept/{opening}", 201, one, PATCH)
    play("a blob is left", "DELETE", upload, 204)
    counts("with a blob", before + 1)
    play("nothing is left", "DELETE", f"poor/kept/{blob}", 202)
    counts("with nothing", before)
    for path, code in ((blob, "BLOB_UNKNOWN"), (f"manifests/{sha256(index)}", "MANIFEST_UNKNOWN"), ("tags/list", "NAME_UNKNOWN")):
        play("of a removed repository", "GET", f"poor/kept/{path}", 404, code=code)
    play("a blob of a removed repository", "DELETE", f"poor/kept/{blob}", 404, code="BLOB_UNKNOWN")
    play("a monolithic upload that is refused", "POST", f"poor/bad/blobs/uploads/?digest={sha256(b'two')}", 400, one, PATCH, code="DIGEST_INVALID")
    counts("after a refused upload", before)
    play("the name can be used again", "POST", f"poor/kept/{opening}", 201, one, PATCH)
    play("and is removed again", "DELETE", f"poor/kept/{blob}", 202)
    counts("at the end", before)


def refusals(flows):
    play, big = flows.play, random.Random(1).randbytes(3_000_000)
    play("a bad name", "POST", "Acme/one/blobs/uploads/", 400, code="NAME_INVALID")
    play("a name that is too long", "POST", f"acme/{'a' * 300}/blobs/uploads/", 400, code="NAME_INVALID")
    play("no such tenant", "POST", "nobody/one/blobs/uploads/", 404, code="NAME_UNKNOWN")
    play("a bad digest", "GET", "acme/one/blobs/sha256:xyz", 400, code="DIGEST_INVALID")
    play("no manifest", "PUT", "acme/one/manifests/bad", 400, b'{"schemaVersion":2', {"Content-Type": MANIFEST}, code="MANIFEST_INVALID")
    play("a manifest that is too long", "PUT", "acme/one/manifests/long", 413, b" " * 4_194_305, {"Content-Type": MANIFEST}, code="SIZE_INVALID")
    at = flows.opened("poor/one")
    play("past the quota", "PATCH", at, 403, big, PATCH, code="DENIED")
    play("its upload can be abandoned", "DELETE", at, 204)
    play("no endpoint", "GET", "acme/one", 404)
    play("no such method", "POST", f"acme/one/blobs/{sha256(b'')}", 405, code="UNSUPPORTED")
    play("healthy", "GET", "/healthz", 200)
    flows.client = Client(flows.client.connection.host + ":" + str(flows.client.connection.port))
    play("a head that is too long", "GET", "acme/one/tags/list", 431, headers={"X-Long": "a" * 300_000})


def main():
    def play(address):
        flows = Flows(address)
        for part in (blobs, manifests, names, refusals):
            part(flows)
        print(f"flows: {flows.good} passed, {flows.wrong} failed")
        return flows.wrong == 0
    if len(sys.argv) > 1:
        sys.exit(not play(sys.argv[1]))
    with serving("--slots", "64", "--repositories", str(MOST_NAMES)) as server:
        good = play(server.address)
        ended = server.end()
    sys.exit(not good or ended != 0)


if __name__ == "__main__":
    main()
