"""A client that speaks HTTP by itself: uploads that it resumes, mounts, manifests of some media types, tags that move, and deletes. It has
two repositories of its own, and shares one with others."""
import json
import time

from crash.asking import BYTES, Asker
from crash.facts import SUBJECT, Fault, Upload
from server import INDEX, MANIFEST, sha256, sha512

DOCKER = "application/vnd.docker.distribution.manifest.v2+json"

# The greatest length of a content that the store hashes by SHA-512.
LONGEST = 16_384

# Bounds for what a client keeps.
MOST_BLOBS, MOST_MANIFESTS, MOST_UPLOADS = 16, 8, 5

TAGS = ("v1", "v2", "v3", "latest")

# The manifests of the shared repository. They refer to one blob, which nobody deletes.
CONFIG = b"{}"
SHARED = [
    json.dumps({
        "schemaVersion": 2, "mediaType": MANIFEST, "layers": [], "annotations": {"number": str(number)},
        "config": {"mediaType": "application/vnd.oci.image.config.v1+json", "digest": sha256(CONFIG), "size": len(CONFIG)},
    }).encode() for number in range(5)
]


def type_in(body):
    """Returns the media type that a manifest itself states or implies."""
    fields = json.loads(body)
    return fields.get("mediaType") or (INDEX if "manifests" in fields else MANIFEST)


class Raw(Asker):
    def __init__(self, tenant, name, facts, seed, most):
        super().__init__(f"{tenant}/{name}", facts, seed)
        self.tenant, self.most, self.promise = tenant, most, "closes"
        self.own = [f"{tenant}/{name}-one", f"{tenant}/{name}-two"]
        self.shared = f"{tenant}/shared"

    def some_bytes(self):
        """Returns bytes of a random length: mostly few, seldom up to `most`, and never one alone, whose range would be that of none."""
        draw = self.rng.random()
        most = self.most if draw < 0.005 else 40_000 if draw < 0.03 else 6000 if draw < 0.2 else 600
        return self.rng.randbytes(self.rng.randint(2, min(most, self.most)))

    def uploads(self):
        return [upload for upload in self.facts.uploads if upload.repository in self.own]

    def turn(self):
        """Makes one change, or reads something."""
        rng, repository = self.rng, self.rng.choice(self.own)
        blobs, manifests = self.facts.present("blob", repository), self.facts.present("manifest", repository)
        tags, uploads = self.facts.present("tag", repository), self.uploads()
        choices = [(4, self.starts), (2, self.pushes_at_once)] if len(uploads) < MOST_UPLOADS else []
        choices += [(1, self.mounts), (6, self.writes_shared), (3, self.reads)]
        if uploads:
            weight = 4 if len(uploads) < MOST_UPLOADS else 20
            choices += [(weight, self.appends), (weight, self.closes), (0.5, self.abandons), (0.5, self.closes_wrongly)]
        if blobs and len(manifests) < MOST_MANIFESTS:
            choices += [(4, self.puts)]
        if manifests:
            choices += [(3, self.tags_again), (1.5 if len(manifests) < MOST_MANIFESTS else 9, self.deletes_manifest)]
        if tags:
            choices += [(1, self.deletes_tag)]
        if blobs:
            choices += [(2 if len(blobs) < MOST_BLOBS else 9, self.deletes_blob)]
        weights, calls = zip(*choices)
        rng.choices(calls, weights)[0](repository)

    # uploads

    def opened(self, repository, answer):
        """Notes an upload that was opened."""
        upload = Upload(repository, answer["Location"])
        with self.facts.lock:
            self.facts.uploads.append(upload)

    def starts(self, repository):
        begun = time.monotonic()
        self.opened(repository, self.asks("POST", f"{repository}/blobs/uploads/", wants=[202]))
        self.facts.proves(begun)

    def is_over(self, upload):
        with self.facts.lock:
            self.facts.uploads.remove(upload)
            self.facts.ended.append(upload.location)

    def grows(self, upload):
        """Returns a random chunk of an upload, and the headers with it."""
        chunk = self.some_bytes()
        upload.sent = upload.sent[:upload.length] + chunk
        headers, body = dict(BYTES), chunk
        if self.rng.random() < 0.7:
            headers["Content-Range"] = f"{upload.length}-{len(upload.sent) - 1}"
        if self.rng.random() < 0.2:
            headers["Transfer-Encoding"], body = "chunked", iter([chunk[:7], chunk[7:]] if chunk[7:] else [chunk])
        return body, headers

    def appends(self, _):
        upload = self.rng.choice(self.uploads())
        body, headers = self.grows(upload)
        answer = self.asks("PATCH", upload.location, body, headers, wants=[202])
        upload.length = len(upload.sent)
        if answer["Range"] != f"0-{upload.length - 1}" or answer["Location"] != upload.location:
            raise Fault(f"{self.name}: the range after a chunk is {answer['Range']}, and not 0-{upload.length - 1}")
        if self.promise == "each":
            upload.promised = upload.length
        upload.chunks.append((time.monotonic(), upload.length))

    def closes(self, _, upload=None):
        upload = upload or self.rng.choice(self.uploads())
        body, headers = self.grows(upload)
        digest = self.rng.choice([sha256, sha256, sha256, sha512 if len(upload.sent) <= LONGEST else sha256])(upload.sent)
        self.facts.keeps(digest, upload.sent)
        upload.ending = digest
        change, begun = self.facts.change(), time.monotonic()
        change.sets(("blob", upload.repository, digest), True)
        change.begins()
        self.asks("PUT", f"{upload.location}?digest={digest}", body, headers, wants=[201])
        change.answered()
        self.facts.proves(begun)
        self.is_over(upload)

    def closes_wrongly(self, _):
        upload = self.rng.choice(self.uploads())
        self.asks("PUT", f"{upload.location}?digest={sha256(b'other')}", b"", BYTES, wants=[400])

    def abandons(self, _):
        upload = self.rng.choice(self.uploads())
        upload.ending = "abandoned"
        self.asks("DELETE", upload.location, wants=[204])
        self.is_over(upload)

    def pushes_at_once(self, repository, data=None):
        data = data or self.some_bytes()
        digest = sha256(data)
        self.facts.keeps(digest, data)
        change = self.facts.change()
        change.sets(("blob", repository, digest), True)
        change.begins()
        self.asks("POST", f"{repository}/blobs/uploads/?digest={digest}", data, BYTES, wants=[201])
        change.answered()

    def mounts(self, repository):
        """Mounts a blob of any repository of the tenant. Others may delete it meanwhile; then an upload is opened instead."""
        places = [place for place in self.facts.repositories() if place.startswith(f"{self.tenant}/") and place != repository]
        held = [(place, digest) for place in places for digest in self.facts.present("blob", place)]
        if not held:
            return
        source, digest = self.rng.choice(held)
        change = self.facts.change()
        change.sets(("blob", repository, digest), True)
        change.begins()
        named = f"&from={source}" if self.rng.random() < 0.7 else ""
        wants = [201] if source in self.own else [201, 202]
        answer = self.asks("POST", f"{repository}/blobs/uploads/?mount={digest}{named}", wants=wants)
        if answer.status == 201:
            change.answered()
        else:
            change.refused()
            self.opened(repository, answer)

    def deletes_blob(self, repository):
        digest = self.rng.choice(self.facts.present("blob", repository))
        held = {part for manifest in self.facts.present("manifest", repository) for part in self.facts.digests[manifest]}
        if digest in held:
            self.asks("DELETE", f"{repository}/blobs/{digest}", wants=[403])
            return
        change, begun = self.facts.change(), time.monotonic()
        change.sets(("blob", repository, digest), None)
        change.begins()
        self.asks("DELETE", f"{repository}/blobs/{digest}", wants=[202])
        change.answered()
        self.facts.proves(begun)

    # manifests and tags

    def manifest(self, repository):
        """Returns a new manifest over some blobs of a repository, its media type, and whether its text states that."""
        blobs = self.facts.present("blob", repository)
        parts = self.rng.sample(blobs, min(len(blobs), self.rng.randint(1, 4)))
        entries = [
            {"mediaType": "application/vnd.oci.image.layer.v1.tar", "digest": digest, "size": len(self.facts.contents[digest])}
            for digest in parts
        ]
        kind = self.rng.choice([MANIFEST, MANIFEST, DOCKER, INDEX])
        fields = {"schemaVersion": 2, "annotations": {"note": str(self.rng.random())}}
        if kind == INDEX:
            fields["manifests"], parts = [], []
        else:
            fields["config"], fields["layers"] = entries[0], entries[1:]
        if self.rng.random() < 0.5:
            fields["mediaType"] = kind
        if self.rng.random() < 0.5:
            fields["subject"] = {"mediaType": MANIFEST, "digest": SUBJECT, "size": 1}
        body = json.dumps(fields).encode()
        self.facts.keeps(sha256(body), body)
        self.facts.digests[sha256(body)] = parts
        return body, kind

    def put(self, repository, body, kind, tag, headers):
        """Puts a manifest, under a tag if one is given."""
        digest = sha256(body)
        change = self.facts.change()
        change.sets(("manifest", repository, digest), kind)
        if type_in(body) != kind and self.facts.value("manifest", repository, digest) is None:
            # if its media type is lost before the answer, it has the one that its text implies
            change.may_set(("manifest", repository, digest), type_in(body))
        if tag:
            change.sets(("tag", repository, tag), digest)
        change.begins()
        answer = self.asks("PUT", f"{repository}/manifests/{tag or digest}", body, headers, wants=[201])
        if answer["Docker-Content-Digest"] != digest:
            raise Fault(f"{self.name}: the digest of a manifest is {answer['Docker-Content-Digest']}, and not {digest}")
        change.answered()

    def puts(self, repository):
        body, kind = self.manifest(repository)
        self.put(repository, body, kind, self.rng.choice([None, *TAGS, *TAGS]), {"Content-Type": kind})

    def tags_again(self, repository):
        """Puts a manifest that is there under a tag, sometimes without its media type."""
        digest = self.rng.choice(self.facts.present("manifest", repository))
        kind = self.facts.value("manifest", repository, digest)
        headers = {"Content-Type": kind} if self.rng.random() < 0.7 else {}
        self.put(repository, self.facts.contents[digest], kind, self.rng.choice(TAGS), headers)

    def deletion(self, repository, digest, kind):
        """Returns the change that deletes a manifest with its tags. One that is interrupted may have lost its media type."""
        change = self.facts.change()
        change.sets(("manifest", repository, digest), None)
        if type_in(self.facts.contents[digest]) != kind:
            change.may_set(("manifest", repository, digest), type_in(self.facts.contents[digest]))
        for tag in self.facts.keys("tag", repository):
            change.sets(("tag", repository, tag), None, only=digest)
        return change.begins()

    def deletes_manifest(self, repository):
        digest = self.rng.choice(self.facts.present("manifest", repository))
        change = self.deletion(repository, digest, self.facts.value("manifest", repository, digest))
        self.asks("DELETE", f"{repository}/manifests/{digest}", wants=[202])
        change.answered()

    def deletes_tag(self, repository):
        tag = self.rng.choice(self.facts.present("tag", repository))
        change = self.facts.change()
        change.sets(("tag", repository, tag), None)
        change.begins()
        self.asks("DELETE", f"{repository}/manifests/{tag}", wants=[202])
        change.answered()

    def writes_shared(self, _):
        """Puts or deletes a manifest or a tag of the shared repository, while others do the same."""
        repository, body, tag, draw = self.shared, self.rng.choice(SHARED), self.rng.choice(TAGS), self.rng.random()
        if self.facts.value("blob", repository, sha256(CONFIG)) is None:
            self.pushes_at_once(repository, CONFIG)
        digest = sha256(body)
        self.facts.keeps(digest, body)
        self.facts.digests[digest] = [sha256(CONFIG)]
        if draw < 0.6:
            self.put(repository, body, MANIFEST, tag, {"Content-Type": MANIFEST})
            return
        if draw < 0.8:
            change, path = self.deletion(repository, digest, MANIFEST), digest
        else:
            change, path = self.facts.change(), tag
            change.sets(("tag", repository, tag), None)
            change.begins()
        if self.asks("DELETE", f"{repository}/manifests/{path}", wants=[202, 404]).status == 202:
            change.answered()
        else:
            change.refused()

    # reads

    def reads(self, repository):
        """Reads something that is there, and compares it."""
        kind = self.rng.choice(["blob", "manifest", "tag"])
        names = self.facts.present(kind, repository)
        if not names:
            return
        name = self.rng.choice(names)
        digest = self.facts.value(kind, repository, name) if kind == "tag" else name
        answer = self.asks("GET", f"{repository}/{'blobs' if kind == 'blob' else 'manifests'}/{name}", wants=[200])
        if answer.body != self.facts.contents[digest]:
            raise Fault(f"{self.name}: {kind} {name} of {repository} has other bytes")
