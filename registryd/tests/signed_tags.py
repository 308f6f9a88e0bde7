#!/usr/bin/env python3
"""Tests tags that need a signature: signatures by openssl in cosign's form, what is none, tags that move, signatures that go, keys that
change, indexes, many referrers, rights, mirrors, restarts, and the messages of skopeo, podman, docker and ctr."""
import base64, concurrent.futures, contextlib, json, os, shutil, sys, tempfile

from audits import lines
from clients import Ctr, Docker, Podman
from hardships import played
from images import image, skopeo
from immutable import delete, digest_of, put
from limits import CHEAP, basic, users
from playing import until
from receivers import Receiver, receivers_file
from referrers import descriptor, index
from restarts import by_kill_of_both, by_signal, folder, push, pushed
from rights import write
from server import INDEX, MANIFEST, manifest_of, serving, sha256
from statuses import check, ended
from tokens import openssl

ARTIFACT = "application/vnd.dev.cosign.artifact.sig.v1+json"
PAYLOAD = "application/vnd.dev.cosign.simplesigning.v1+json"
ANNOTATION = "dev.cosignproject.cosign/signature"
AGAIN = "read the signed tags again"
REFUSALS = "registryd_unsigned_refusals_total"
REPO = "acme/app"

# The number of signatures that are tried.
TRIED = 100


class Keys:
    """Private keys and public ones in files, by openssl."""

    def __init__(self, top):
        self.top = top
        for name, curve in (("one", "prime256v1"), ("two", "prime256v1"), ("p384", "secp384r1")):
            openssl("ecparam", "-name", curve, "-genkey", "-noout", "-out", f"{top}/{name}")
            openssl("pkey", "-in", f"{top}/{name}", "-pubout", "-out", f"{top}/{name}.pub")

    def sign(self, name, message):
        """Returns a signature in ASN.1."""
        with tempfile.NamedTemporaryFile() as file:
            file.write(message)
            file.flush()
            return openssl("dgst", "-sha256", "-sign", f"{self.top}/{name}", file.name)


@contextlib.contextmanager
def serving_signed(*words, rules=("acme/app v* one.pub",), **options):
    """Starts a registry with tags that need a signature. Returns it, the keys, and the file of the tags, which lies in the folder of the
    keys."""
    with tempfile.TemporaryDirectory() as top:
        keys, file = Keys(top), f"{top}/signed"
        write(file, "# PREFIX PATTERN KEY..", *rules)
        with serving("--signed-tags", file, *words, **options) as server:
            yield server, keys, file


def payload_of(digest, kind="cosign container image signature", **more):
    """Returns a payload as cosign writes it."""
    identity, described = {"docker-reference": "localhost/acme/app"}, {"docker-manifest-digest": digest}
    return json.dumps({"critical": {"identity": identity, "image": described, "type": kind}, "optional": None, **more}).encode()


def signature_of(client, repo, subject, payload, encoded, kind=PAYLOAD, artifact=ARTIFACT, config=b"{}"):
    """Pushes the blobs of a manifest with a signature, and returns the manifest. With a subject it is a referrer, as cosign makes it with
    --registry-referrers-mode=oci-1-1."""
    for data in (config, payload):
        push(client, repo, data)
    layer = {"mediaType": kind, "digest": sha256(payload), "size": len(payload), "annotations": {ANNOTATION: encoded}}
    parts = {"config": {"mediaType": artifact, "digest": sha256(config), "size": len(config)}, "layers": [layer]}
    described = {"subject": subject} if subject else {}
    return json.dumps({"schemaVersion": 2, "mediaType": MANIFEST, **parts, **described}).encode()


def base(data):
    return base64.b64encode(data).decode()


def sign(client, keys, content, name="one", repo=REPO, kind=MANIFEST):
    """Signs a manifest by a referrer, and returns that."""
    payload = payload_of(sha256(content))
    made = signature_of(client, repo, descriptor(content, kind), payload, base(keys.sign(name, payload)))
    assert put(client, repo, sha256(made), made)["OCI-Subject"] == sha256(content)
    return made


def image_of(client, number, repo=REPO):
    """Pushes the blobs of an image, and returns its manifest."""
    for data in (b"{}", b"layer %d" % number):
        push(client, repo, data)
    return manifest_of(b"{}", [b"layer %d" % number])


def get(client, tag="v1", repo=REPO, method="GET", **headers):
    return client.ask(method, f"/v2/{repo}/manifests/{tag}", headers=headers)


def refused(client, content, tag="v1", repo=REPO, rule="acme/app v*", tried="", **headers):
    """Checks that a tag is refused."""
    answer = get(client, tag, repo, **headers)
    assert (answer.status, answer["Docker-Content-Digest"], answer["ETag"]) == (403, None, None), (answer.status, answer.body)
    failure = json.loads(answer.body)["errors"][0]
    message = f"tag {tag} must be signed: {sha256(content)} has no signature by a key of the rule `{rule}`{tried}"
    assert failure == {"code": "DENIED", "message": message, "detail": {"tag": tag, "digest": sha256(content), "rule": rule}}, failure


def served(client, content, tag="v1", repo=REPO):
    answer = get(client, tag, repo)
    assert (answer.status, answer.body) == (200, content), (answer.status, answer.body)
    assert digest_of(client, repo, tag) == sha256(content)


def an_unsigned_tag_is_refused():
    with serving_signed() as (server, keys, _):
        client = server.client()
        one = image_of(client, 1)
        for tag in ("v1", "latest"):
            assert put(client, REPO, tag, one).status == 201
        refused(client, one)
        # No condition and no range bypasses it.
        for headers in ({"If-None-Match": f'"{sha256(one)}"'}, {"If-None-Match": "*"}, {"If-Match": f'"{sha256(one)}"'}, {"If-Match": '"x"'}, {"Range": "bytes=0-9"},
                        {"Accept": "*/*"}):
            refused(client, one, **headers)
        assert server.metric(REFUSALS) == 7
        # Everybody may push here. A client that looks whether it has to push gets 404, and pushes.
        assert get(client, method="HEAD").status == get(client, method="HEAD", **{"If-None-Match": f'"{sha256(one)}"'}).status == 404
        assert put(client, REPO, "v1", one).status == 201 and server.metric(REFUSALS) == 7
        # Other tags, the digest, the blobs and the lists are as ever.
        served(client, one, "latest")
        assert get(client, sha256(one)).body == one and get(client, sha256(one), method="HEAD").status == 200
        assert client.ask("GET", f"/v2/{REPO}/blobs/{sha256(b'layer 1')}").body == b"layer 1"
        assert json.loads(client.ask("GET", f"/v2/{REPO}/tags/list").body)["tags"] == ["latest", "v1"]
        assert json.loads(client.ask("GET", "/v2/_catalog").body)["repositories"] == [REPO]
        status = lambda: json.loads(client.ask("GET", "/status").body)["signed_tags"]
        assert status() == {"rules": 1, "refusals": 7}, status()
        sign(client, keys, one)
        served(client, one)
        assert get(client, **{"If-None-Match": f'"{sha256(one)}"'}).status == 304
        assert status() == {"rules": 1, "refusals": 7}, status()
        # A tag that is not there is 404 as ever.
        assert get(client, "v2").status == get(client, "v2", method="HEAD").status == 404


def a_tag_may_have_the_signatures():
    """The older form of cosign, which the registry must also serve to those who verify."""
    with serving_signed(rules=["* * one.pub"]) as (server, keys, _):
        client = server.client()
        one = image_of(client, 1)
        assert put(client, REPO, "v1", one).status == 201
        payload, other = payload_of(sha256(one)), payload_of(sha256(b"other"))
        made = signature_of(client, REPO, None, payload, base(keys.sign("one", payload)), artifact="application/vnd.oci.image.config.v1+json")
        # The last layer is the newest. One by another key does no harm.
        text = json.loads(made)
        wrong = json.loads(signature_of(client, REPO, None, other, base(keys.sign("two", other))))
        text["layers"] = wrong["layers"] + text["layers"] + wrong["layers"]
        made, tag = json.dumps(text).encode(), f"sha256-{sha256(one)[7:]}.sig"
        refused(client, one, rule="* *")
        assert put(client, REPO, "signature", made).status == 201
        refused(client, one, rule="* *")
        assert put(client, REPO, tag, made).status == 201
        served(client, one)
        served(client, made, tag)
        refused(client, made, "signature", rule="* *")
        assert delete(client, REPO, tag).status == 202
        refused(client, one, rule="* *")
        # The tag of another repository does not count.
        assert put(client, "acme/app/web", "v1", image_of(client, 1, "acme/app/web")).status == 201
        push(client, "acme/app/web", payload)
        push(client, "acme/app/web", other)
        assert put(client, "acme/app/web", tag, made).status == 201
        served(client, one, repo="acme/app/web")
        refused(client, one, rule="* *")


def what_is_no_signature():
    with serving_signed() as (server, keys, _):
        client = server.client()
        one, other = image_of(client, 1), image_of(client, 2)
        assert put(client, REPO, "v1", one).status == put(client, REPO, "other", other).status == 201
        payload, subject = payload_of(sha256(one)), descriptor(one)
        good = keys.sign("one", payload)
        der = good[2:]
        r = der[2:2 + der[1]]
        s = der[4 + der[1]:]
        fixed = b"".join(part.lstrip(b"\0").rjust(32, b"\0") for part in (r, s))
        def of(payload, **more):
            return signature_of(client, REPO, subject, payload, base(keys.sign("one", payload)), **more)
        def with_text(text):
            return signature_of(client, REPO, subject, payload, text)
        def of_digest(digest):
            return of(payload_of(digest))
        long = payload_of(sha256(one), optional={"long": "x" * 65536})
        without = json.loads(with_text("")), json.loads(with_text(""))
        del without[0]["layers"][0]["annotations"]
        without[1]["layers"] = []
        wrong = {
            "by another key": with_text(base(keys.sign("two", payload))),
            "by a key on P-384": with_text(base(keys.sign("p384", payload))),
            "of another payload": with_text(base(keys.sign("one", payload + b" "))),
            "of another image": of_digest(sha256(other)),
            "of another form of the digest": of_digest(sha256(one).upper()),
            "of a digest without its algorithm": of_digest(sha256(one)[7:]),
            "of another type": of(payload_of(sha256(one), "atomic container signature")),
            "of no JSON": of(b"payload"),
            "of JSON that is no payload": of(b"[]"),
            "of nothing": of(b""),
            "of a long payload": of(long),
            "of another media type": of(payload, kind="application/json"),
            "of another artifact": of(payload, artifact="application/vnd.dev.cosign.artifact.att.v1+json"),
            "of an image": of(payload, artifact="application/vnd.oci.image.config.v1+json"),
            "with the two numbers alone": with_text(base(fixed)),
            "cut": with_text(base(good[:-1])),
            "empty": with_text(""),
            "not base64": with_text(base(good)[:-2] + "!="),
            "with a line's end": with_text(base(good) + "\n"),
            "without annotations": json.dumps(without[0]).encode(),
            "without layers": json.dumps(without[1]).encode(),
            "too long": json.dumps({**json.loads(of(payload)), "annotations": {"long": "x" * (128 << 10)}}).encode(),
            "no image": json.dumps({"schemaVersion": 2, "mediaType": INDEX, "manifests": [], "artifactType": ARTIFACT, "subject": subject}).encode(),
        }
        for name, made in wrong.items():
            assert put(client, REPO, sha256(made), made, json.loads(made)["mediaType"]).status == 201, name
            try:
                refused(client, one)
            except AssertionError as error:
                raise AssertionError(f"{name}: {error}")
        # Of another image, in a referrer of that image, and in a manifest without a subject.
        sign(client, keys, other)
        alone = signature_of(client, REPO, None, payload, base(good))
        assert put(client, REPO, sha256(alone), alone).status == 201
        refused(client, one)
        served(client, other, "other")
        # All of these do no harm.
        assert put(client, REPO, sha256(with_text(base(good))), with_text(base(good))).status == 201
        served(client, one)


def a_tag_moves_and_a_signature_goes():
    with serving_signed() as (server, keys, _):
        client = server.client()
        one, two = image_of(client, 1), image_of(client, 2)
        assert put(client, REPO, "v1", one).status == 201
        made = sign(client, keys, one)
        served(client, one)
        assert put(client, REPO, "v1", two).status == 201
        refused(client, two)
        assert put(client, REPO, "v1", one).status == 201
        served(client, one)
        for _ in range(3):
            assert delete(client, REPO, sha256(made)).status == 202
            refused(client, one)
            assert put(client, REPO, sha256(made), made).status == 201
            served(client, one)
        # A second one remains.
        again = sign(client, keys, one)
        assert again != made and delete(client, REPO, sha256(made)).status == 202
        served(client, one)
        # The signature is there before the tag, and before its subject.
        three = image_of(client, 3)
        sign(client, keys, three)
        assert put(client, REPO, "v3", three).status == 201
        served(client, three, "v3")
        # A retag of a signed image is signed.
        assert put(client, REPO, "v4", one).status == 201
        served(client, one, "v4")


def rules_and_keys_are_read_again():
    with serving_signed(rules=["other v* one.pub"]) as (server, keys, file):
        client = server.client()
        one = image_of(client, 1)
        assert put(client, REPO, "v1", one).status == 201
        served(client, one)
        write(file, "acme/app v* one.pub")
        server.reload(AGAIN)
        refused(client, one)
        first = sign(client, keys, one)
        served(client, one)
        # A bad line, and a bad key: the rules stay as they were.
        for line, why in (("acme", "line 2: not PREFIX PATTERN KEY.."), ("acme/ v1 one.pub", "line 2: not the name of a repository"),
                          ("acme v[1] one.pub", "line 2: not a pattern of tags"), ("acme v1 none.pub", "line 2: cannot read a public key: .*none.pub: No such file"),
                          ("acme v1 p384.pub", "line 2: cannot read a public key: .*p384.pub: a key is not ECDSA on the curve P-256"),
                          ("acme v1 one", "line 2: cannot read a public key: .*one: a block is not PUBLIC KEY: EC PRIVATE KEY"),
                          ("acme v1 signed", "line 2: cannot read a public key: .*signed: no public key in PEM")):
            write(file, "* * two.pub", line)
            server.reload(f"cannot read the signed tags: {file}: {why}.*: kept the signed tags that were read before")
            served(client, one)
        # The key changes: first both are good, and then the new one.
        write(file, "acme/app v* one.pub two.pub")
        server.reload(AGAIN)
        served(client, one)
        shutil.copy(f"{keys.top}/two.pub", f"{keys.top}/release.pub")
        write(file, "acme/app v* release.pub")
        server.reload(AGAIN)
        refused(client, one)
        sign(client, keys, one, "two")
        served(client, one)
        # The same line, and another key in its file.
        shutil.copy(f"{keys.top}/one.pub", f"{keys.top}/release.pub")
        server.reload(AGAIN)
        served(client, one)
        assert delete(client, REPO, sha256(first)).status == 202
        refused(client, one)
        # Each line that covers the tag needs a signature.
        write(file, "acme * one.pub", "acme/app v* two.pub")
        server.reload(AGAIN)
        refused(client, one, rule="acme *")
        sign(client, keys, one, "one")
        served(client, one)
        write(file, "")
        server.reload(AGAIN)
        two = image_of(client, 2)
        assert put(client, REPO, "v1", two).status == 201
        served(client, two)


def an_index_is_signed_itself():
    with serving_signed() as (server, keys, _):
        client = server.client()
        one, two = image_of(client, 1), image_of(client, 2)
        listing = index(descriptor(one), descriptor(two))
        for content in (one, two):
            assert put(client, REPO, sha256(content), content).status == 201
        assert put(client, REPO, "v1", listing, INDEX).status == put(client, REPO, "v2", one).status == 201
        sign(client, keys, one)
        sign(client, keys, two)
        refused(client, listing)
        served(client, one, "v2")
        sign(client, keys, listing, kind=INDEX)
        served(client, listing)
        # Its images are pulled by their digests.
        assert get(client, sha256(two)).body == two
        # An image of a signed index is not signed by that.
        three = image_of(client, 3)
        wide = index(descriptor(three))
        assert put(client, REPO, "v3", three).status == put(client, REPO, "wide", wide, INDEX).status == 201
        sign(client, keys, wide, kind=INDEX)
        refused(client, three, "v3")


def the_newest_of_many_are_tried():
    with serving_signed() as (server, keys, _):
        client = server.client()
        one = image_of(client, 1)
        assert put(client, REPO, "v1", one).status == 201
        payload, subject = payload_of(sha256(one)), descriptor(one)
        good, bad = (base(keys.sign(name, payload)) for name in ("one", "two"))
        def attach(number, text, artifact=ARTIFACT):
            made = json.loads(signature_of(client, REPO, subject, payload, text, artifact=artifact))
            made = json.dumps({**made, "annotations": {"number": str(number)}}).encode()
            assert put(client, REPO, sha256(made), made).status == 201
            return made
        # Those of other types are not tried.
        for number in range(200):
            attach(number, bad, "application/vnd.example.sbom+json")
        for number in range(TRIED):
            attach(number, bad)
        refused(client, one)
        assert delete(client, REPO, sha256(attach(0, bad))).status == 202
        attach("good", good)
        served(client, one)
        # Ages count by seconds, and so these may be as old as the good one.
        for number in range(TRIED, 2 * TRIED):
            attach(number, bad)
        assert until(lambda: [attach(number, bad) for number in range(TRIED)] and get(client).status == 403, 60)
        refused(client, one, tried=" among the newest that were tried")
        # The signatures in one manifest are counted too.
        made = json.loads(attach("all", bad))
        wrong, right = made["layers"][0], {**made["layers"][0], "annotations": {ANNOTATION: good}}
        tag = f"sha256-{sha256(one)[7:]}.sig"
        for layers, is_good in (([right, *[wrong] * (TRIED - 1)], True), ([right, *[wrong] * TRIED], False)):
            assert put(client, REPO, tag, json.dumps({**made, "subject": None, "layers": layers}).encode()).status == 201
            assert get(client).status == (200 if is_good else 403), len(layers)
        refused(client, one, tried=" among the newest that were tried")


@contextlib.contextmanager
def serving_people(*words):
    """Starts a registry with a builder, who may write, and a reader. Returns it, the keys, and their clients."""
    people = [f"{name}:{CHEAP}" for name in ("builder", "reader")]
    with users(*people) as file, users("builder read,write acme", "reader read acme") as rights:
        with serving_signed("--htpasswd", file, "--rights", rights, *words) as (server, keys, _):
            yield server, keys, *(server.client(basic(f"{name}:secret")) for name in ("builder", "reader"))


def rights_decide_about_looks_alone():
    with serving_people() as (server, keys, builder, reader):
        one = image_of(builder, 1)
        # As a builder does it: look for the tag, push by it, and sign by the digest.
        assert get(builder, method="HEAD").status == 404 and put(builder, REPO, "v1", one).status == 201
        for client in (builder, reader):
            refused(client, one)
        assert (get(builder, method="HEAD").status, get(reader, method="HEAD").status) == (404, 403)
        assert get(server.client()).status == get(server.client(), method="HEAD").status == 401
        assert get(builder, sha256(one)).status == get(builder, sha256(one), method="HEAD").status == 200
        made = sign(builder, keys, one)
        for client in (builder, reader):
            served(client, one)
            # Whoever verifies finds the signature.
            listed = json.loads(client.ask("GET", f"/v2/{REPO}/referrers/{sha256(one)}?artifactType={ARTIFACT}").body)["manifests"]
            assert [found["digest"] for found in listed] == [sha256(made)]


def a_refused_pull_is_audited_and_no_event():
    with tempfile.TemporaryDirectory() as top, Receiver() as receiver, receivers_file(receiver.entry()) as file:
        log = f"{top}/audit.json"
        receiver.begin()
        with serving_people("--audit-log", log, "--events", file) as (server, keys, builder, reader):
            one = image_of(builder, 1)
            assert put(builder, REPO, "v1", one).status == 201
            refused(reader, one)
            assert get(reader, method="HEAD").status == 403
            sign(builder, keys, one)
            served(reader, one)
            ends = lambda: [(line["method"], line["status"], line["result"]) for line in lines(log) if line["user"] == "reader"]
            expected = [("GET", 403, "refused"), ("HEAD", 403, "refused"), ("GET", 200, "done"), ("HEAD", 200, "done")]
            assert until(lambda: ends() == expected, 60), ends()
            pulls = lambda: [event["request"]["method"] for event in receiver.events if event["action"] == "pull"]
            assert until(lambda: pulls() == ["GET", "HEAD"], 60), pulls()


def clients_at_once():
    """Many clients pull one tag while signatures come and go. Each gets the image or the refusal, and nothing else."""
    with serving_signed("--lines", "4") as (server, keys, _):
        client = server.client()
        one = image_of(client, 1)
        assert put(client, REPO, "v1", one).status == 201
        made = sign(client, keys, one)
        with concurrent.futures.ThreadPoolExecutor(16) as pool:
            def pull(_):
                answer = get(server.client())
                assert answer.status in (200, 403) and (answer.status == 403 or answer.body == one), (answer.status, answer.body)
                return answer.status
            assert set(pool.map(pull, range(100))) == {200}
            pulls = [pool.submit(pull, number) for number in range(300)]
            while not all(pull.done() for pull in pulls):
                assert delete(client, REPO, sha256(made)).status == 202
                refused(client, one)
                assert put(client, REPO, sha256(made), made).status == 201
                served(client, one)
            assert all(pull.result() for pull in pulls)
            assert set(pool.map(pull, range(100))) == {200}


def restarts_keep_signatures():
    with folder() as path, tempfile.TemporaryDirectory() as top:
        keys, file, end = Keys(top), f"{top}/signed", None
        write(file, "acme/app v* one.pub")
        for end in (by_signal, by_kill_of_both):
            with serving("--data", path, "--signed-tags", file) as server:
                client = server.client()
                one, two = image_of(client, 1), image_of(client, 2)
                for tag, content in (("v1", one), ("v2", two)):
                    assert put(client, REPO, tag, content).status == 201
                sign(client, keys, one)
                served(client, one)
                refused(client, two, "v2")
                end(server)
        with serving("--data", path, "--signed-tags", file) as server:
            served(server.client(), one)
            refused(server.client(), two, "v2")
        # Without the option, the tag is as any other.
        with serving("--data", path) as server:
            served(server.client(), two, "v2")
            assert json.loads(server.client().ask("GET", "/status").body)["signed_tags"] is None


def a_mirror_needs_the_signature():
    with serving() as upstream, tempfile.TemporaryDirectory() as top:
        keys, file, owner = Keys(top), f"{top}/signed", upstream.client()
        one = pushed(owner, REPO)
        payload = payload_of(sha256(one))
        made = signature_of(owner, REPO, None, payload, base(keys.sign("one", payload)))
        tag = f"sha256-{sha256(one)[7:]}.sig"
        assert put(owner, REPO, tag, made).status == 201
        write(file, "* * one.pub")
        words = ["--mirror-of", f"acme=http://{upstream.address}/acme", "--signed-tags", file]
        with serving(*words) as server:
            client = server.client()
            # Refused while it passes and after it is stored.
            refused(client, one, rule="* *")
            assert get(client, method="HEAD").status == 403
            assert until(lambda: get(client, sha256(one)).status == 200, 30)
            refused(client, one, rule="* *")
            assert get(client, tag).body == made
            assert until(lambda: get(client).status == 200, 30)
            served(client, one)
        with serving(*words, "--mirror-s", "1") as server:
            assert until(lambda: get(server.client()).status == 200, 60)
            served(server.client(), one)


def a_start_names_the_line():
    with tempfile.TemporaryDirectory() as top:
        Keys(top)
        file = f"{top}/signed"
        for line, why in (("acme v1", "line 2: not PREFIX PATTERN KEY.."), ("acme v1 p384.pub", f"line 2: cannot read a public key: {top}/p384.pub: a key is not ECDSA on the curve P-256"),
                          ("acme v1 none.pub", f"line 2: cannot read a public key: {top}/none.pub: No such file")):
            write(file, "acme v1 one.pub", line)
            check(ended("--signed-tags", file), 1, f"cannot read the signed tags: {file}: {why}")
        check(ended("--signed-tags", f"{file}.none"), 1, f"cannot read the signed tags: {file}.none: No such file")


def fails_with(text, step):
    """Checks that a step fails with a text, and returns the message."""
    try:
        step()
    except AssertionError as error:
        assert text in str(error), error
        return str(error)
    raise AssertionError("it succeeds")


def skopeo_and_podman_say_why():
    with serving_signed() as (server, keys, _), tempfile.TemporaryDirectory() as top:
        at, to, of = f"docker://{server.address}/acme/app:v1", "--dest-tls-verify=false", "--src-tls-verify=false"
        client, podman = server.client(), Podman(top)
        image(f"{top}/one", [1000], 1)
        # The second push finds an unsigned tag.
        for _ in range(2):
            skopeo("copy", to, f"oci:{top}/one:latest", at)
        pulls = [lambda: skopeo("copy", of, at, f"oci:{top}/back:latest"), lambda: skopeo("copy", of, "--retry-times", "3", at, f"oci:{top}/back:latest"),
                 lambda: skopeo("inspect", "--tls-verify=false", at)]
        if os.geteuid() == 0:
            pulls.append(lambda: podman.pull(f"{server.address}/acme/app:v1"))
        for number, pull in enumerate(pulls):
            fails_with("tag v1 must be signed: sha256:", pull)
            # It does not try again.
            assert server.metric(REFUSALS) == number + 1
        assert json.loads(skopeo("list-tags", "--tls-verify=false", at.rsplit(":", 1)[0]))["Tags"] == ["v1"]
        digest = json.loads(skopeo("inspect", f"oci:{top}/one:latest"))["Digest"]
        sign(client, keys, get(client, digest).body)
        for pull in pulls:
            pull()


def daemons_say_why(kind, names):
    """A daemon pulls, is refused, and pushes the tag again before it is signed."""
    if not all(shutil.which(name) for name in names) or os.geteuid() != 0:
        print(f"signed_tags: left out: {names[0]}")
        return
    with serving_signed() as (server, keys, _), tempfile.TemporaryDirectory() as top:
        os.mkdir(f"{top}/files")
        with open(f"{top}/files/file", "w") as file:
            file.write("content")
        try:
            daemon = kind(top)
        except SystemExit:
            print(f"signed_tags: left out: {names[0]} (it cannot be started here)")
            return
        try:
            at, client = f"{server.address}/acme/app:v1", server.client()
            daemon.push(at)
            shutil.rmtree(f"{top}/image", ignore_errors=True)
            daemon.push(at)
            text = "tag v1 must be signed: sha256:" if kind is Docker else "v1: not found"
            fails_with(text, lambda: daemon.pull(at))
            tags = json.loads(client.ask("GET", "/status?tenant=acme").body)["repositories"][0]["tags"]
            content = get(client, tags[0]["digest"]).body
            sign(client, keys, content, kind=json.loads(content)["mediaType"])
            daemon.forget()
            daemon.pull(at)
        finally:
            daemon.end()


def docker_says_why():
    daemons_say_why(Docker, ["docker", "dockerd"])


def ctr_pushes_and_is_refused():
    daemons_say_why(Ctr, ["ctr", "containerd"])


TESTS = [an_unsigned_tag_is_refused, a_tag_may_have_the_signatures, what_is_no_signature, a_tag_moves_and_a_signature_goes,
         rules_and_keys_are_read_again, an_index_is_signed_itself, the_newest_of_many_are_tried, rights_decide_about_looks_alone,
         a_refused_pull_is_audited_and_no_event, clients_at_once, restarts_keep_signatures, a_mirror_needs_the_signature,
         a_start_names_the_line, skopeo_and_podman_say_why, docker_says_why, ctr_pushes_and_is_refused]


def main():
    names = sys.argv[1:]
    tests = [test for test in TESTS if not names or test.__name__ in names]
    wrong = sum(played(test) for test in tests)
    print(f"signed_tags: {len(tests) - wrong} passed, {wrong} failed")
    sys.exit(wrong > 0)


if __name__ == "__main__":
    main()
