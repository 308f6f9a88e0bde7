#!/usr/bin/env python3
"""Tests referrers, indexes that protect what they list, and the list of repositories (OCI Distribution Specification 1.1)."""
import json, subprocess, tempfile, threading

from playing import play, serving_stub
from server import INDEX, MANIFEST, manifest_of, serving, sha256

PATCH = {"Content-Type": "application/octet-stream"}
EMPTY = {"mediaType": "application/vnd.oci.empty.v1+json", "digest": sha256(b"{}"), "size": 2}


def descriptor(content, kind=MANIFEST):
    return {"mediaType": kind, "digest": sha256(content), "size": len(content)}


def artifact(described, **more):
    """Returns an image manifest with the empty config whose subject is a manifest."""
    whole = {"schemaVersion": 2, "mediaType": MANIFEST, "config": EMPTY, "layers": [], "subject": descriptor(described), **more}
    return json.dumps(whole).encode()


def index(*listed, **more):
    return json.dumps({"schemaVersion": 2, "mediaType": INDEX, "manifests": list(listed), **more}).encode()


def put(client, repo, content, reference=None, status=201):
    answer = client.ask("PUT", f"/v2/{repo}/manifests/{reference or sha256(content)}", content)
    assert answer.status == status, (answer.status, answer.body[:200])
    return answer


def repository(client, repo):
    """Makes a repository with an image and returns its manifest."""
    assert client.ask("POST", f"/v2/{repo}/blobs/uploads/?digest={sha256(b'{}')}", b"{}", PATCH).status == 201
    image = manifest_of(b"{}", [])
    put(client, repo, image, "v1")
    return image


def page(client, path):
    """Returns the descriptors of one page, and the path of the next."""
    answer = client.ask("GET", path)
    assert (answer.status, answer["Content-Type"]) == (200, INDEX), (path, answer.status, answer.body[:200])
    found = json.loads(answer.body)
    assert (found["schemaVersion"], found["mediaType"]) == (2, INDEX), found
    head = client.ask("HEAD", path)
    assert (head.status, head["Content-Length"], head["Link"], head.body) == (200, str(len(answer.body)), answer["Link"], b"")
    assert (answer["OCI-Filters-Applied"] == "artifactType") == ("artifactType=" in path), (path, answer["OCI-Filters-Applied"])
    link = answer["Link"]
    assert link is None or link.endswith('>; rel="next"'), link
    return found["manifests"], link and link[1:].split(">")[0]


def referrers(client, repo, subject, query=""):
    """Returns the descriptors of all pages."""
    found, path = [], f"/v2/{repo}/referrers/{sha256(subject)}{query}"
    while path:
        more, path = page(client, path)
        found += more
    return found


def each_kind_is_described(server):
    client, repo = server.client(), "acme/kinds"
    image = repository(client, repo)
    kinds = [
        (artifact(image, artifactType="application/vnd.example.sbom+json", annotations={"one": "ä", "two": ""}), MANIFEST,
         {"artifactType": "application/vnd.example.sbom+json", "annotations": {"one": "ä", "two": ""}}),
        (artifact(image), MANIFEST, {"artifactType": EMPTY["mediaType"]}),
        (artifact(image, artifactType="", annotations={}), MANIFEST, {"artifactType": EMPTY["mediaType"], "annotations": {}}),
        (index(descriptor(image), subject=descriptor(image), artifactType="a/b"), INDEX, {"artifactType": "a/b"}),
        (index(subject=descriptor(image), annotations={"three": "3"}), INDEX, {"annotations": {"three": "3"}}),
    ]
    assert referrers(client, repo, image) == []
    for content, _, _ in kinds:
        assert put(client, repo, content)["OCI-Subject"] == sha256(image)
    assert put(client, repo, image, "v2")["OCI-Subject"] is None
    expected = sorted(({**descriptor(content, kind), **more} for content, kind, more in kinds), key=lambda one: one["digest"])
    assert referrers(client, repo, image) == expected, referrers(client, repo, image)
    for wanted in ("application/vnd.example.sbom+json", EMPTY["mediaType"], "a/b", "c/d"):
        chosen = [one for one in expected if one.get("artifactType") == wanted]
        for text in (wanted, wanted.replace("+", "%2B").replace("/", "%2F")):
            for pages in ("", "&n=1"):
                assert referrers(client, repo, image, f"?artifactType={text}{pages}") == chosen, (text, pages)
    for number in (1, 2, 4, 5, 6):
        assert referrers(client, repo, image, f"?n={number}") == expected, number
    assert page(client, f"/v2/{repo}/referrers/{sha256(image)}?n=0") == ([], None)
    # One that is put again, also under a tag, is listed once.
    put(client, repo, kinds[0][0], "sbom")
    assert referrers(client, repo, image) == expected
    assert client.ask("DELETE", f"/v2/{repo}/manifests/{expected[0]['digest']}").status == 202
    assert referrers(client, repo, image) == expected[1:]
    # The subject can be deleted before what refers to it.
    assert client.ask("DELETE", f"/v2/{repo}/manifests/{sha256(kinds[3][0])}").status in (202, 404)
    assert client.ask("DELETE", f"/v2/{repo}/manifests/{sha256(image)}").status == 202
    rest = [one for one in expected[1:] if one["digest"] != sha256(kinds[3][0])]
    assert referrers(client, repo, image) == rest


def a_subject_need_not_exist(server):
    client, repo, later = server.client(), "acme/later", index(annotations={"later": "yes"})
    repository(client, repo)
    early = artifact(later)
    assert put(client, repo, early)["OCI-Subject"] == sha256(later)
    assert [one["digest"] for one in referrers(client, repo, later)] == [sha256(early)]
    put(client, repo, later)
    assert [one["digest"] for one in referrers(client, repo, later)] == [sha256(early)]
    by_sha512 = "sha512:" + "0" * 128
    put(client, repo, artifact(later, subject={"digest": by_sha512}))
    assert len(page(client, f"/v2/{repo}/referrers/{by_sha512}")[0]) == 1
    for subject in ({}, "x", {"digest": "sha256:0"}, {"digest": 5}, []):
        assert put(client, repo, artifact(later, subject=subject), status=400).code() == "MANIFEST_INVALID", subject
    assert put(client, repo, artifact(later, artifactType="a/" + "b" * 254), status=400).code() == "MANIFEST_INVALID"


def unknown_and_invalid_names(server):
    client = server.client()
    for repo in ("acme/none", "acme/kinds", "nobody/none"):
        assert page(client, f"/v2/{repo}/referrers/{sha256(b'none')}") == ([], None)
    for path, code in (("acme/kinds/referrers/sha256:0", "DIGEST_INVALID"), ("acme/kinds/referrers/x", "DIGEST_INVALID"),
                       (f"acme/Kinds/referrers/{sha256(b'')}", "NAME_INVALID"), (f"acme/kinds/referrers/{sha256(b'')}?n=x", "UNSUPPORTED")):
        answer = client.ask("GET", f"/v2/{path}")
        assert (answer.status, answer.code()) == (400, code), (path, answer.status, answer.body)


def pages_have_a_bound():
    """A page has the annotations of its manifests. It is shorter than the longest manifest, unless it has one descriptor."""
    with serving_stub({}) as server:
        client, subject = server.client(), index()
        sizes = [300_000] * 10 + [3_000_000, 4_100_000, 100] + [10] * 40
        contents = [artifact(subject, annotations={"n": str(number), "text": "x" * size}) for number, size in enumerate(sizes)]
        for content in contents:
            put(client, "acme/big", content)
        found, pages, path = [], 0, f"/v2/acme/big/referrers/{sha256(subject)}"
        while path:
            answer = client.ask("GET", path)
            more = json.loads(answer.body)["manifests"]
            assert len(answer.body) < 4 << 20 and (len(answer.body) < 2_200_000 or len(more) == 1), (len(answer.body), len(more))
            found, pages, path = found + more, pages + 1, answer["Link"] and answer["Link"][1:].split(">")[0]
        assert [one["digest"] for one in found] == sorted(map(sha256, contents)) and 4 <= pages <= 20, (len(found), pages)
        assert {one["annotations"]["text"] for one in found} == {"x" * size for size in sizes}


def an_index_protects_what_it_lists(server):
    client, repo = server.client(), "acme/protected"
    image = repository(client, repo)
    inner = index(descriptor(image))
    outer = index(descriptor(inner, INDEX), descriptor(image))
    put(client, repo, inner)
    put(client, repo, outer, "all")
    def denied(content, *indexes):
        answer = client.ask("DELETE", f"/v2/{repo}/manifests/{sha256(content)}")
        assert (answer.status, answer.code()) == (403, "DENIED"), (answer.status, answer.body)
        assert json.loads(answer.body)["errors"][0]["detail"]["manifest"] in map(sha256, indexes), answer.body
    def deleted(reference):
        answer = client.ask("DELETE", f"/v2/{repo}/manifests/{reference}")
        assert answer.status == 202, (answer.status, answer.body)
    denied(image, inner, outer)
    denied(inner, outer)
    assert client.ask("GET", f"/v2/{repo}/manifests/v1").body == image
    # A tag is no manifest, and goes without its index.
    deleted("v1")
    deleted("all")
    denied(inner, outer)
    deleted(sha256(outer))
    denied(image, inner)
    deleted(sha256(inner))
    deleted(sha256(image))
    # In another repository nothing protects it.
    put(client, "acme/copies", index())
    put(client, repo, index(descriptor(index(), INDEX)))
    assert client.ask("DELETE", f"/v2/acme/copies/manifests/{sha256(index())}").status == 202


def an_image_may_be_deleted_although_an_index_lists_it():
    """With --delete-listed, as other registries do."""
    with serving("--delete-listed") as server:
        client, repo = server.client(), "acme/listed"
        image = repository(client, repo)
        listing = index(descriptor(image))
        put(client, repo, listing, "all")
        at = f"/v2/{repo}/manifests/{sha256(image)}"
        assert client.ask("DELETE", at).status == 202
        assert (client.ask("GET", at).status, client.ask("DELETE", at).status) == (404, 404)
        assert client.ask("GET", f"/v2/{repo}/manifests/all").body == listing
        # The image can be pushed again, and the index is deleted like any other.
        put(client, repo, image, "v1")
        assert client.ask("DELETE", at).status == client.ask("DELETE", f"/v2/{repo}/manifests/{sha256(listing)}").status == 202


def an_index_may_list_what_is_missing(server):
    client, repo = server.client(), "acme/sparse"
    image = repository(client, repo)
    sparse = index(descriptor(image), descriptor(b"none"), {"digest": "x"}, 5)
    warnings = [value for name, value in put(client, repo, sparse).headers.items() if name.lower() == "warning"]
    assert '299 - "the repository lacks 1 of the manifests that the index lists"' in warnings, warnings
    assert client.ask("DELETE", f"/v2/{repo}/manifests/{sha256(b'none')}").status == 404
    assert client.ask("GET", f"/v2/{repo}/manifests/{sha256(sparse)}").body == sparse
    full = put(client, repo, index(descriptor(image)))
    assert not [value for _, value in full.headers.items() if "lacks" in value]


def writers_at_once_leave_true_lists(server):
    """Clients put and delete the same referrers and an index at the same time. Afterwards the lists name what is there."""
    client, repo, faults = server.client(), "acme/race", []
    image = repository(client, repo)
    contents = [artifact(image, annotations={"n": str(number)}) for number in range(3)] + [index(descriptor(image), subject=descriptor(image))]
    def write(seed):
        mine = server.client()
        for number in range(40):
            content = contents[(seed * 7 + number * (seed + 1)) % len(contents)]
            method, body, fine = (("PUT", content, (201,)), ("DELETE", None, (202, 404)))[(seed + number) % 2]
            status = mine.ask(method, f"/v2/{repo}/manifests/{sha256(content)}", body).status
            if status not in fine:
                faults.append((method, status))
            if mine.ask("GET", f"/v2/{repo}/referrers/{sha256(image)}").status != 200:
                faults.append("referrers")
    writers = [threading.Thread(target=write, args=(number,)) for number in range(4)]
    for writer in writers:
        writer.start()
    for writer in writers:
        writer.join()
    assert not faults, faults[:3]
    there = [sha256(content) for content in contents if client.ask("HEAD", f"/v2/{repo}/manifests/{sha256(content)}").status == 200]
    assert [one["digest"] for one in referrers(client, repo, image)] == sorted(there)
    status = client.ask("DELETE", f"/v2/{repo}/manifests/{sha256(image)}").status
    assert status == (403 if sha256(contents[3]) in there else 202), status


def repositories_are_listed():
    with tempfile.NamedTemporaryFile("w") as users:
        hashed = subprocess.run(["openssl", "passwd", "-6", "secret"], stdout=subprocess.PIPE, text=True).stdout.strip()
        users.write(f"acme:{hashed}\nother:{hashed}\n")
        users.flush()
        from base64 import b64encode
        def user(name):
            return {"Authorization": "Basic " + b64encode(f"{name}:secret".encode()).decode()}
        with serving("--htpasswd", users.name) as server:
            acme, other = server.client(user("acme")), server.client(user("other"))
            for client, repo in ((acme, "acme/b"), (acme, "acme/a/x"), (acme, "acme/a"), (other, "other/one"), (acme, "acme")):
                put(client, repo, index())
            assert acme.ask("POST", f"/v2/acme/blobs-only/blobs/uploads/?digest={sha256(b'{}')}", b"{}", PATCH).status == 201
            def listed(client, query=""):
                found, path = [], f"/v2/_catalog{query}"
                while path:
                    answer = client.ask("GET", path)
                    assert (answer.status, answer["Content-Type"]) == (200, "application/json"), answer.status
                    assert client.ask("HEAD", path)["Content-Length"] == str(len(answer.body))
                    found.append(json.loads(answer.body)["repositories"])
                    path = answer["Link"] and answer["Link"][1:].split(">")[0]
                return found
            mine = ["acme", "acme/a", "acme/a/x", "acme/b"]
            assert listed(acme) == [mine] and listed(other) == [["other/one"]]
            assert listed(acme, "?n=3") == [mine[:3], mine[3:]] and listed(acme, "?n=4") == [mine]
            assert listed(acme, "?n=0") == [[]] and listed(acme, "?last=acme/a") == [mine[2:]]
            assert acme.ask("GET", "/v2/_catalog?n=x").status == 400
            assert server.client().ask("GET", "/v2/_catalog").status == 401
            assert acme.ask("DELETE", f"/v2/acme/b/manifests/{sha256(index())}").status == 202
            assert listed(acme) == [mine[:3]]
    with serving() as server:
        client = server.client()
        for repo in ("other/one", "acme/one"):
            put(client, repo, index())
        assert client.ask("GET", "/v2/_catalog").body == b'{"repositories":["acme/one","other/one"]}\n'


def main():
    with serving("--slots", "16") as server:
        play("referrers", [
            (each_kind_is_described, server), (a_subject_need_not_exist, server), (unknown_and_invalid_names, server),
            pages_have_a_bound, (an_index_protects_what_it_lists, server), an_image_may_be_deleted_although_an_index_lists_it, (an_index_may_list_what_is_missing, server),
            (writers_at_once_leave_true_lists, server), repositories_are_listed])


if __name__ == "__main__":
    main()
