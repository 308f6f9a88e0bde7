#!/usr/bin/env python3
"""Checks the statements of the OCI Distribution Specification 1.1 on a registry, and prints how many hold as a table: those that it
requires (MUST), recommends (SHOULD) and permits (MAY). It fails if a required or a recommended one does not hold.
conformance.py [--all] [HOST:PORT] checks a running registry with the tenants acme and poor, or starts one. --all prints each statement.
If it starts one, it also fails if the table of docs/TESTING.md is another."""
import json, os, re, sys, uuid

from playing import serving_stub
from referrers import EMPTY, artifact, descriptor, index
from server import INDEX, MANIFEST, TOP, Client, manifest_of, serving, sha256, sha512

OCTETS = {"Content-Type": "application/octet-stream"}
KIND = {"Content-Type": MANIFEST}
LEVELS = ("required", "recommended", "optional")


class Checks:
    """A client, and the statements that were checked with it."""

    def __init__(self, address):
        self.client, self.part, self.found = Client(address), None, []

    def note(self, level, statement, holds):
        self.found.append((self.part, level, statement, bool(holds)))

    def must(self, statement, holds):
        self.note("required", statement, holds)

    def should(self, statement, holds):
        self.note("recommended", statement, holds)

    def may(self, statement, holds):
        self.note("optional", statement, holds)

    def ask(self, method, path, body=None, headers=()):
        return self.client.ask(method, path if path.startswith("/") else f"/v2/{path}", body, headers)

    def blob(self, repo, data):
        """Pushes a blob."""
        answer = self.ask("POST", f"{repo}/blobs/uploads/")
        return self.ask("PUT", f"{answer['Location']}?digest={sha256(data)}", data, OCTETS)

    def manifest(self, repo, content, reference=None, kind=MANIFEST):
        """Pushes a manifest."""
        return self.ask("PUT", f"{repo}/manifests/{reference or sha256(content)}", content, {"Content-Type": kind})

    def results(self, part):
        """Returns how many statements of a part, or of all, hold at each level."""
        of_levels = [[holds for at, of, _, holds in self.found if part in (at, "all") and of == level] for level in LEVELS]
        return [f"{sum(held)} of {len(held)}" for held in of_levels]

    def table(self):
        """Returns a table of the statements that hold, by parts and levels."""
        lines = [f"{'conformance':<22}" + "".join(f"{level:>16}" for level in LEVELS)]
        lines += [f"{part:<22}" + "".join(f"{result:>16}" for result in self.results(part)) for part in [*PARTS, "all"]]
        return "\n".join(lines)

    def documented(self):
        """Returns whether docs/TESTING.md has the table: a row for each part, with no text for a level without statements."""
        with open(f"{os.path.dirname(TOP)}/docs/TESTING.md", encoding="utf-8") as page:
            rows = [[cell.strip() for cell in line.strip().strip("|").split("|")] for line in page if line.startswith("| ")]
        found = {cells[0].lower(): cells[1:] for cells in rows if len(cells) == 1 + len(LEVELS)}
        wanted = {part: [result.replace("0 of 0", "") for result in self.results(part)] for part in PARTS}
        wrong = [part for part in PARTS if found.get(part) != wanted[part]]
        for part in wrong:
            print(f"WRONG docs/TESTING.md: {part}: {found.get(part)} instead of {wanted[part]}")
        return not wrong


def errors_of(answer):
    """Returns the errors of a response if they have the specified form, or nothing."""
    try:
        errors = json.loads(answer.body)["errors"]
    except (ValueError, KeyError, TypeError):
        return None
    fine = isinstance(errors, list) and errors and all(re.fullmatch("[A-Z_]+", error.get("code", "")) for error in errors)
    fine = fine and all(isinstance(error.get("message", ""), str) for error in errors)
    return errors if fine else None


def is_error(answer, status, code=None):
    if answer.status != status:
        return False
    return code is None or errors_of(answer) is not None and errors_of(answer)[0]["code"] == code


def api(spec):
    ask = spec.ask
    spec.must("end-1: GET /v2/ has status 200", ask("GET", "/v2/").status == 200)
    missing = ask("GET", f"acme/none/blobs/{sha256(b'none')}")
    spec.must("errors in JSON have a list of codes of capital letters and underscores, with texts as messages", errors_of(missing))
    spec.should("errors are in JSON with its Content-Type", missing["Content-Type"] == "application/json")
    cases = [
        ("BLOB_UNKNOWN", 404, ("GET", f"acme/none/blobs/{sha256(b'none')}")),
        ("BLOB_UPLOAD_UNKNOWN", 404, ("GET", f"acme/none/blobs/uploads/{uuid.uuid4()}")),
        ("DIGEST_INVALID", 400, ("GET", "acme/none/blobs/sha256:x")),
        ("MANIFEST_UNKNOWN", 404, ("GET", "acme/none/manifests/v1")),
        ("MANIFEST_INVALID", 400, ("PUT", "acme/none/manifests/v1", b"{", KIND)),
        ("MANIFEST_BLOB_UNKNOWN", 404, ("PUT", "acme/none/manifests/v1", manifest_of(b"none", []), KIND)),
        ("NAME_INVALID", 400, ("POST", "acme/Upper/blobs/uploads/")),
        ("NAME_UNKNOWN", 404, ("GET", "acme/none/tags/list")),
        ("UNSUPPORTED", 405, ("POST", f"acme/none/blobs/{sha256(b'none')}")),
    ]
    for code, status, words in cases:
        spec.must(f"code {code} has status {status}", is_error(ask(*words), status, code))
    spec.must("code DENIED has status 403", is_error(spec.blob("poor/one", b"x" * 100_001), 403, "DENIED"))
    warned = spec.manifest("acme/api", index(descriptor(b"none")), "v1", INDEX)
    warnings = [value for name, value in warned.headers.items() if name.lower() == "warning"]
    spec.may("a response has warnings", warnings)
    form = all(re.fullmatch(r'299 - "[^"\\]*"', warning) for warning in warnings)
    spec.must("a warning has code 299, agent -, and no date", form)
    spec.must("the warnings of a response have at most 4,096 bytes", sum(map(len, warnings)) <= 4096)
    listed = ask("GET", "/v2/_catalog?n=1")
    spec.may("an extension lists the repositories", listed.status == 200 and json.loads(listed.body)["repositories"])


def pull_manifests(spec):
    ask = spec.ask
    spec.blob("acme/pull", b"{}")
    image = manifest_of(b"{}", [])
    plain = image.replace(f'"mediaType":"{MANIFEST}",'.encode(), b"", 1)
    spec.manifest("acme/pull", image, "v1")
    spec.manifest("acme/pull", plain, "plain", MANIFEST + "; charset=utf-8")
    for name, reference in (("a tag", "v1"), ("a digest", sha256(image))):
        got, head = (ask(method, f"acme/pull/manifests/{reference}") for method in ("GET", "HEAD"))
        spec.must(f"end-3: GET of a manifest by {name} has status 200", got.status == 200)
        spec.must(f"end-3: GET of a manifest by {name} has the bytes that were pushed", got.body == image)
        spec.must(f"end-3: HEAD of a manifest by {name} has status 200", head.status == 200)
        spec.should(f"GET of a manifest by {name} has its digest", got["Docker-Content-Digest"] == sha256(image))
        spec.should(f"HEAD of a manifest by {name} has its digest", head["Docker-Content-Digest"] == sha256(image))
        spec.should(f"HEAD of a manifest by {name} has its length", head["Content-Length"] == str(len(image)) and not head.body)
        spec.should(f"GET of a manifest by {name} has the type that was pushed", got["Content-Type"] == MANIFEST)
    kind = ask("GET", "acme/pull/manifests/plain")["Content-Type"]
    spec.should("Content-Type of a manifest has no parameters", kind == MANIFEST)
    refused = ask("GET", "acme/pull/manifests/v1", None, {"Accept": INDEX})
    spec.must("a manifest has its own type, whatever Accept lists", refused.status in (404, 406) or refused["Content-Type"] == MANIFEST)
    for method in ("GET", "HEAD"):
        for name, path in (("tag", "acme/pull/manifests/v9"), ("digest", f"acme/pull/manifests/{sha256(b'none')}"),
                           ("repository", "acme/nothing/manifests/v1")):
            spec.must(f"end-3: {method} of a manifest of an unknown {name} has status 404", ask(method, path).status == 404)
    longest = "a" * 128
    spec.must("a tag may have 128 characters", spec.manifest("acme/pull", image, longest).status == 201)
    spec.must("a tag of 128 characters can be pulled", ask("GET", f"acme/pull/manifests/{longest}").body == image)
    for tag in (longest + "a", ".v1", "-v1", "a%20b"):
        spec.must(f"{tag:.10} is no tag", 400 <= spec.manifest("acme/pull", image, tag).status < 500)
    for repo in ("acme/a.b", "acme/a_b", "acme/a__b", "acme/a---b", "acme/0/1/2", "acme/" + "a" * 250):
        pushed = spec.manifest(repo, index(), "v1", INDEX).status
        spec.must(f"{repo:.20} is a repository's name", pushed == 201 and ask("GET", f"{repo}/manifests/v1").status == 200)
    for repo in ("acme/a___b", "acme/-a", "acme/a-", "acme/A", "acme/a..b", "acme/ä"):
        name = repo.replace("ä", "%C3%A4")
        spec.must(f"{repo} is no repository's name", is_error(ask("GET", f"{name}/manifests/v1"), 400, "NAME_INVALID")
                  or is_error(ask("GET", f"{name}/manifests/v1"), 404))


def pull_blobs(spec):
    ask, data = spec.ask, b"0123456789"
    spec.blob("acme/pull", data)
    at = f"acme/pull/blobs/{sha256(data)}"
    got, head = ask("GET", at), ask("HEAD", at)
    spec.must("end-2: GET of a blob has status 200", got.status == 200)
    spec.must("end-2: GET of a blob has the bytes that were pushed", got.body == data)
    spec.must("end-2: HEAD of a blob has status 200", head.status == 200)
    spec.must("Docker-Content-Digest of a blob is that of its bytes", got["Docker-Content-Digest"] in (None, sha256(data)))
    spec.should("GET of a blob has its digest", got["Docker-Content-Digest"] == sha256(data))
    spec.should("HEAD of a blob has its digest", head["Docker-Content-Digest"] == sha256(data))
    spec.should("HEAD of a blob has its length", head["Content-Length"] == str(len(data)))
    part = ask("GET", at, None, {"Range": "bytes=2-4"})
    spec.should("GET of a blob serves a range (RFC 9110, 14)", (part.status, part.body, part["Content-Range"]) == (206, b"234", "bytes 2-4/10"))
    past = ask("GET", at, None, {"Range": "bytes=10-"})
    spec.should("a range after the end has status 416", (past.status, past["Content-Range"]) == (416, "bytes */10"))
    for method in ("GET", "HEAD"):
        spec.must(f"end-2: {method} of an unknown blob has status 404", ask(method, f"acme/pull/blobs/{sha256(b'none')}").status == 404)
    spec.may("a blob has an entity tag", got["ETag"] and ask("GET", at, None, {"If-None-Match": got["ETag"]}).status == 304)


def push_at_once(spec):
    ask, data = spec.ask, b"at once"
    begun = ask("POST", "acme/push/blobs/uploads/", None, {"Content-Length": "0"})
    spec.must("end-4a: POST of an upload has status 202", begun.status == 202)
    spec.must("end-4a: POST of an upload has a location", begun["Location"])
    other = ask("POST", "acme/push/blobs/uploads/")["Location"]
    spec.must("locations of uploads differ, and have a UUID", other != begun["Location"] and uuid.UUID(other.rsplit("/", 1)[1].split("?")[0]))
    done = ask("PUT", f"{begun['Location']}?digest={sha256(data)}", data, OCTETS)
    spec.must("end-6: PUT of a whole blob has status 201", done.status == 201)
    spec.must("end-6: PUT of a whole blob has the location of the blob", done["Location"] and ask("GET", done["Location"]).body == data)
    wrong = ask("PUT", f"{other}?digest={sha256(b'other')}", data, OCTETS)
    spec.must("a blob under another digest is refused", is_error(wrong, 400, "DIGEST_INVALID"))
    spec.must("a refused blob cannot be pulled", ask("GET", f"acme/push/blobs/{sha256(b'other')}").status == 404)
    one = ask("POST", f"acme/push/blobs/uploads/?digest={sha256(b'one')}", b"one", OCTETS)
    spec.may("end-4b: a POST takes the whole blob", one.status == 201)
    spec.must("end-4b: a POST with a digest has status 201 or 202", one.status in (201, 202) and one["Location"])
    spec.must("end-4b: a blob that a POST took can be pulled", one.status == 202 or ask("GET", one["Location"]).body == b"one")
    long = ask("POST", f"acme/push/blobs/uploads/?digest={sha512(data)}", data, OCTETS)
    spec.may("a blob may be named by SHA-512", long.status == 201 and ask("GET", f"acme/push/blobs/{sha512(data)}").body == data)
    empty = ask("POST", f"acme/push/blobs/uploads/?digest={sha256(b'')}", b"", OCTETS)
    spec.must("a blob may be empty", empty.status in (201, 202))
    again = spec.blob("acme/push", data)
    spec.must("a blob may be pushed again", again.status == 201)


def push_chunks(spec):
    ask, parts = spec.ask, (b"first,", b"second,", b"third")
    whole = b"".join(parts)
    at = ask("POST", "acme/push/blobs/uploads/", None, {"Content-Length": "0"})["Location"]
    def send(data, start, method="PATCH", at=at, query=""):
        return ask(method, at + query, data, {**OCTETS, "Content-Range": f"{start}-{start + len(data) - 1}"})
    first = send(parts[0], 0)
    spec.must("end-5: PATCH of a chunk has status 202", first.status == 202)
    spec.must("end-5: PATCH of a chunk has a location", first["Location"])
    spec.must("end-5: Range of a chunk ends at its last byte", first["Range"] == f"0-{len(parts[0]) - 1}")
    late = send(parts[2], len(parts[0]) + len(parts[1]), at=first["Location"])
    spec.must("a chunk out of order has status 416", late.status == 416)
    twice = send(parts[0], 0, at=first["Location"])
    spec.must("a chunk that was sent before has status 416", twice.status == 416)
    state = ask("GET", first["Location"])
    spec.must("end-13: GET of an upload has status 204", state.status == 204)
    spec.must("end-13: GET of an upload has a location", state["Location"])
    spec.must("end-13: GET of an upload has the range that was received", state["Range"] == f"0-{len(parts[0]) - 1}")
    second = send(parts[1], len(parts[0]), at=state["Location"])
    spec.must("an upload goes on after a refused chunk", (second.status, second["Range"]) == (202, f"0-{len(parts[0]) + len(parts[1]) - 1}"))
    done = send(parts[2], len(parts[0]) + len(parts[1]), "PUT", second["Location"], f"?digest={sha256(whole)}")
    spec.must("end-6: PUT of the last chunk has status 201", done.status == 201)
    spec.must("end-6: PUT of the last chunk has the location of the blob", done["Location"] and ask("GET", done["Location"]).body == whole)
    spec.must("an upload that was closed is unknown", ask("GET", second["Location"]).status == 404)
    streamed = ask("POST", "acme/push/blobs/uploads/")["Location"]
    sent = ask("PATCH", streamed, iter(parts), {**OCTETS, "Transfer-Encoding": "chunked"})
    closed = ask("PUT", f"{sent['Location']}?digest={sha256(whole)}", None, {"Content-Length": "0"})
    spec.may("a PATCH takes the whole blob as a stream", (sent.status, closed.status) == (202, 201))
    gone = ask("POST", "acme/push/blobs/uploads/")["Location"]
    spec.should("end-14: DELETE of an upload has status 204", ask("DELETE", gone).status == 204)
    spec.must("an upload that was deleted is unknown", ask("GET", gone).status == 404)


def push_mounted(spec):
    ask, data = spec.ask, b"mounted"
    spec.blob("acme/push", data)
    done = ask("POST", f"acme/mounted/blobs/uploads/?mount={sha256(data)}&from=acme/push")
    spec.must("end-11: a mount has status 201, or 202 and a location", done.status in (201, 202) and done["Location"])
    spec.may("end-11: a blob is mounted", done.status == 201)
    spec.must("end-11: a mounted blob can be pulled by the location", done.status == 202 or ask("GET", done["Location"]).body == data)
    none = ask("POST", f"acme/mounted/blobs/uploads/?mount={sha256(b'none')}&from=acme/push")
    spec.should("end-11: a mount of an unknown blob opens an upload", none.status == 202)
    pushed = ask("PUT", f"{none['Location']}?digest={sha256(b'none')}", b"none", OCTETS)
    spec.must("end-11: an upload that a mount opened takes the blob", pushed.status == 201)
    spec.may("end-11: a mount needs no source", ask("POST", f"acme/mounted-too/blobs/uploads/?mount={sha256(data)}").status == 201)


def push_manifests(spec):
    ask = spec.ask
    for data in (b"{}", b"layer"):
        spec.blob("acme/push", data)
    image = manifest_of(b"{}", [b"layer"]) + b" \n"
    for name, reference in (("tag", "v1"), ("digest", sha256(image))):
        done = spec.manifest("acme/push", image, reference)
        spec.must(f"end-7: PUT of a manifest by {name} has status 201", done.status == 201)
        spec.must(f"end-7: PUT of a manifest by {name} has its location", done["Location"] and ask("GET", done["Location"]).body == image)
        spec.must(f"end-7: the digest of a PUT by {name} is that of its bytes", done["Docker-Content-Digest"] in (None, sha256(image)))
        spec.should(f"end-7: PUT of a manifest by {name} has its digest", done["Docker-Content-Digest"] == sha256(image))
    spec.must("a manifest keeps its exact bytes", ask("GET", "acme/push/manifests/v1").body == image)
    spec.must("a manifest by another digest is refused", is_error(spec.manifest("acme/push", image, sha256(b"other")), 400, "DIGEST_INVALID"))
    spec.must("a manifest without layers is accepted", spec.manifest("acme/push", manifest_of(b"{}", []), "v2").status == 201)
    spec.must("an index is accepted", spec.manifest("acme/push", index(descriptor(image)), "all", INDEX).status == 201)
    typed = artifact(image, artifactType="application/vnd.example.artifact")
    spec.must("an artifact is accepted", spec.manifest("acme/push", typed, "artifact").status == 201)
    spec.must("a tag can be moved", spec.manifest("acme/push", image, "v2").status == 201 and ask("GET", "acme/push/manifests/v2").body == image)
    too_long = spec.manifest("acme/push", manifest_of(b"{}", []) + b" " * (4 << 20), "long")
    spec.should("a manifest that is too long has status 413", too_long.status == 413)
    lacking = spec.manifest("acme/push", manifest_of(b"missing", []), "v3")
    spec.may("a manifest whose blobs are missing is refused", is_error(lacking, 404, "MANIFEST_BLOB_UNKNOWN"))
    spec.may("an index whose manifests are missing is accepted", spec.manifest("acme/push", index(descriptor(b"no")), "v4", INDEX).status == 201)
    with serving_stub({}) as server:
        whole = manifest_of(b"{}", [])
        long = whole + b" " * ((4 << 20) - len(whole))
        answer = server.client().ask("PUT", "/v2/acme/long/manifests/v1", long, KIND)
        spec.should("a manifest of 4 MiB is accepted", answer.status == 201)


def push_subjects(spec):
    spec.blob("acme/subjects", b"{}")
    image = manifest_of(b"{}", [])
    first = spec.manifest("acme/subjects", artifact(image), "early")
    spec.must("a manifest whose subject is missing is accepted", first.status == 201)
    spec.must("PUT of a manifest with a subject has OCI-Subject", first["OCI-Subject"] == sha256(image))
    listing = index(subject=descriptor(image))
    spec.must("PUT of an index with a subject has OCI-Subject", spec.manifest("acme/subjects", listing, None, INDEX)["OCI-Subject"] == sha256(image))
    spec.must("PUT of a manifest without a subject has no OCI-Subject", spec.manifest("acme/subjects", image, "v1")["OCI-Subject"] is None)
    tag = sha256(image).replace(":", "-")
    fallback = spec.manifest("acme/subjects", index(descriptor(artifact(image))), tag, INDEX)
    spec.must("a client may keep the tag of the referrers tag schema", fallback.status == 201)


def discover_tags(spec):
    ask = spec.ask
    spec.blob("acme/tags", b"{}")
    for tag in ("v3", "V2", "v1", "_", "10", "9"):
        spec.manifest("acme/tags", manifest_of(b"{}", []), tag)
    got = ask("GET", "acme/tags/tags/list")
    spec.must("end-8a: GET of the tags has status 200", got.status == 200)
    listed = json.loads(got.body)
    spec.must("end-8a: the tags are an object with name and tags", listed["name"] == "acme/tags" and set(listed["tags"]) == {"v3", "V2", "v1", "_", "10", "9"})
    spec.must("the tags are in order, by case or without (as the specification's tests have it)",
              listed["tags"] in (sorted(listed["tags"]), sorted(listed["tags"], key=str.lower)))
    page = ask("GET", "acme/tags/tags/list?n=2")
    spec.must("end-8b: a page has n tags, or a link", json.loads(page.body)["tags"] == listed["tags"][:2])
    spec.may("end-8b: a page has a link if more follow", page["Link"])
    spec.must("the link names the next page (RFC 5988)", re.fullmatch(r'<[^>]+>; rel="next"', page["Link"]))
    rest, path = [], page["Link"][1:].split(">")[0]
    while path:
        answer = ask("GET", path)
        rest, path = rest + json.loads(answer.body)["tags"], answer["Link"] and answer["Link"][1:].split(">")[0]
    spec.must("the pages have each tag once", rest == listed["tags"][2:])
    none = ask("GET", "acme/tags/tags/list?n=0")
    spec.must("end-8b: n=0 has an empty list", none.status == 200 and json.loads(none.body)["tags"] == [])
    spec.must("end-8b: n=0 has no link", none["Link"] is None)
    after = ask("GET", f"acme/tags/tags/list?n=9&last={listed['tags'][3]}")
    spec.must("end-8b: the tags after last are listed", json.loads(after.body)["tags"] == listed["tags"][4:])
    spec.must("the last page has no link", after["Link"] is None)
    spec.must("end-8a: the tags of an unknown repository have status 404", is_error(ask("GET", "acme/nothing/tags/list"), 404))
    spec.manifest("acme/untagged", index(), None, INDEX)
    bare = ask("GET", "acme/untagged/tags/list")
    spec.must("a repository without tags has an empty list", (bare.status, json.loads(bare.body)["tags"]) == (200, []))
    spec.may("HEAD of the tags is served", ask("HEAD", "acme/tags/tags/list").status == 200)


def discover_referrers(spec):
    ask = spec.ask
    spec.blob("acme/referrers", b"{}")
    image = manifest_of(b"{}", [])
    typed = artifact(image, artifactType="application/vnd.example.sbom+json", annotations={"a": "b"})
    plain, listing = artifact(image), index(subject=descriptor(image), annotations={"c": "d"})
    typed_listing = index(subject=descriptor(image), artifactType="application/vnd.example.index")
    path = f"acme/referrers/referrers/{sha256(image)}"
    def found(query=""):
        answer = ask("GET", path + query)
        return {one["digest"]: one for one in json.loads(answer.body)["manifests"]}, answer
    empty, answer = found()
    spec.must("end-12a: referrers of nothing have status 200, never 404", answer.status == 200)
    spec.must("end-12a: without referrers the list is empty", empty == {})
    spec.must("end-12a: referrers in an unknown repository are not 404", ask("GET", f"acme/nothing/referrers/{sha256(image)}").status == 200)
    for content, kind in ((typed, MANIFEST), (plain, MANIFEST), (listing, INDEX), (typed_listing, INDEX), (image, MANIFEST)):
        spec.manifest("acme/referrers", content, None, kind)
    listed, answer = found()
    spec.must("end-12a: the referrers have the type of an index", answer["Content-Type"] == INDEX)
    body = json.loads(answer.body)
    spec.must("end-12a: the referrers are an index", body["schemaVersion"] == 2 and body["mediaType"] == INDEX)
    spec.must("end-12a: each manifest with the subject is listed", set(listed) == set(map(sha256, (typed, plain, listing, typed_listing))))
    spec.must("a descriptor has type, digest and length", all(
        listed[sha256(content)].items() >= descriptor(content, kind).items() for content, kind in ((typed, MANIFEST), (listing, INDEX))))
    spec.must("artifactType is the manifest's", listed[sha256(typed)]["artifactType"] == "application/vnd.example.sbom+json")
    spec.must("artifactType is that of the config if the manifest has none", listed[sha256(plain)]["artifactType"] == EMPTY["mediaType"])
    spec.must("artifactType of an index is the index's", listed[sha256(typed_listing)]["artifactType"] == "application/vnd.example.index")
    spec.must("artifactType of an index without one is left out", "artifactType" not in listed[sha256(listing)])
    spec.must("a descriptor has the annotations of an image manifest", listed[sha256(typed)].get("annotations") == {"a": "b"})
    spec.must("a descriptor has the annotations of an index", listed[sha256(listing)].get("annotations") == {"c": "d"})
    chosen, answer = found("?artifactType=application/vnd.example.sbom%2Bjson")
    spec.should("end-12b: the referrers are filtered by artifactType", set(chosen) == {sha256(typed)})
    spec.must("end-12b: a filter that was applied is named", answer["OCI-Filters-Applied"] == "artifactType")
    chosen, answer = found("?artifactType=application/vnd.example.none")
    spec.must("end-12b: a filter that fits nothing has an empty list", (answer.status, chosen) == (200, {}))
    spec.must("end-12a: a digest that is none has status 400", ask("GET", "acme/referrers/referrers/sha256:x").status == 400)
    page = ask("GET", f"{path}?n=1")
    spec.may("the referrers are in pages", page["Link"])
    spec.must("the link names the next page (RFC 5988)", re.fullmatch(r'<[^>]+>; rel="next"', page["Link"]))
    spec.may("HEAD of the referrers is served", ask("HEAD", path).status == 200)


def manage(spec):
    ask = spec.ask
    spec.blob("acme/managed", b"{}")
    spec.blob("acme/managed", b"layer")
    image, held = manifest_of(b"{}", []), manifest_of(b"{}", [b"layer"])
    for tag in ("v1", "v2"):
        spec.manifest("acme/managed", image, tag)
    spec.manifest("acme/managed", held, "v3")
    signature = artifact(image)
    spec.manifest("acme/managed", signature)
    spec.must("end-9: DELETE of a tag has status 202", ask("DELETE", "acme/managed/manifests/v2").status == 202)
    spec.must("a tag that was deleted has status 404", ask("GET", "acme/managed/manifests/v2").status == 404)
    spec.must("the manifest of a tag that was deleted stays", ask("GET", "acme/managed/manifests/v1").body == image)
    spec.must("end-9: DELETE of an unknown tag has status 404", ask("DELETE", "acme/managed/manifests/v2").status == 404)
    spec.must("end-9: DELETE of a manifest with a subject has status 202", ask("DELETE", f"acme/managed/manifests/{sha256(signature)}").status == 202)
    rest = json.loads(ask("GET", f"acme/managed/referrers/{sha256(image)}").body)["manifests"]
    spec.must("a manifest that was deleted is no referrer", rest == [])
    spec.must("end-9: DELETE of a manifest has status 202", ask("DELETE", f"acme/managed/manifests/{sha256(image)}").status == 202)
    spec.must("a manifest that was deleted has status 404", ask("GET", f"acme/managed/manifests/{sha256(image)}").status == 404)
    spec.must("the tags of a manifest that was deleted have status 404", ask("GET", "acme/managed/manifests/v1").status == 404)
    spec.must("end-9: DELETE of an unknown manifest has status 404", ask("DELETE", f"acme/managed/manifests/{sha256(image)}").status == 404)
    spec.must("end-9: DELETE in an unknown repository has status 404", ask("DELETE", f"acme/nothing/manifests/{sha256(image)}").status == 404)
    blob = f"acme/managed/blobs/{sha256(b'layer')}"
    spec.may("DELETE of a blob that a manifest refers to is refused", is_error(ask("DELETE", blob), 403, "DENIED"))
    ask("DELETE", f"acme/managed/manifests/{sha256(held)}")
    spec.must("end-10: DELETE of a blob has status 202", ask("DELETE", blob).status == 202)
    spec.must("a blob that was deleted has status 404", ask("GET", blob).status == 404)
    spec.must("end-10: DELETE of an unknown blob has status 404", ask("DELETE", blob).status == 404)


PARTS = {
    "api": [api], "pull": [pull_manifests, pull_blobs],
    "push": [push_at_once, push_chunks, push_mounted, push_manifests, push_subjects],
    "content discovery": [discover_tags, discover_referrers], "content management": [manage],
}


def check(address, prints_all, compares=False):
    """Checks everything, prints the table, and returns whether all that is required or recommended holds, and the page has the table."""
    spec = Checks(address)
    for spec.part, parts in PARTS.items():
        for part in parts:
            part(spec)
    for part, level, statement, holds in spec.found:
        if prints_all or not holds:
            print(f"{'holds' if holds else 'WRONG' if level != 'optional' else 'not'}: {part}, {level}: {statement}")
    print(spec.table())
    good = all(holds or level == "optional" for _, level, _, holds in spec.found)
    return good and (not compares or spec.documented())


def main():
    words = [word for word in sys.argv[1:] if word != "--all"]
    if words:
        sys.exit(not check(words[0], "--all" in sys.argv))
    with serving("--slots", "64", tenants=["acme=1000000,64", "poor=100000,64"]) as server:
        good = check(server.address, "--all" in sys.argv, compares=True)
        ended = server.end()
    sys.exit(not good or ended != 0)


if __name__ == "__main__":
    main()
