"""Changes of a registry that no client knows. The comparisons must find each."""
import json

from crash.asking import BYTES, Asker
from crash.facts import SUBJECT, Fault
from crash.looks import Look
from server import MANIFEST, sha256


class Tampering(Asker):
    """Makes one change of each kind. Some return what undoes it."""

    def one(self, kind):
        """Returns the repository and the name of something of this kind that is there, not in a shared repository."""
        found = [(repository, name) for repository in self.facts.repositories() for name in self.facts.present(kind, repository)]
        return next((repository, name) for repository, name in found if "shared" not in repository)

    def free_blob(self):
        """Returns a blob that no manifest refers to."""
        for repository in self.facts.repositories():
            held = {part for manifest in self.facts.present("manifest", repository) for part in self.facts.digests[manifest]}
            for digest in self.facts.present("blob", repository):
                if digest not in held:
                    return repository, digest
        raise AssertionError("each blob belongs to a manifest")

    def deletes_a_tag(self):
        self.asks("DELETE", "{}/manifests/{}".format(*self.one("tag")), wants=[202])

    def deletes_a_manifest(self):
        self.asks("DELETE", "{}/manifests/{}".format(*self.one("manifest")), wants=[202])

    def deletes_a_blob(self):
        self.asks("DELETE", "{}/blobs/{}".format(*self.free_blob()), wants=[202])

    def puts_a_blob_back(self):
        repository, digest = self.free_blob()
        change = self.facts.change()
        change.sets(("blob", repository, digest), None)
        change.begins().answered()

    def moves_a_tag(self):
        repository, tag = self.one("tag")
        body = json.dumps({"schemaVersion": 2, "mediaType": MANIFEST, "layers": [], "config": self.config(repository)}).encode()
        self.asks("PUT", f"{repository}/manifests/{tag}", body, {"Content-Type": MANIFEST}, wants=[201])

    def config(self, repository):
        digest = self.facts.present("blob", repository)[0]
        return {"mediaType": "application/vnd.oci.image.config.v1+json", "digest": digest, "size": len(self.facts.contents[digest])}

    def adds_a_tag(self):
        repository, digest = self.one("manifest")
        self.asks("PUT", f"{repository}/manifests/unknown", self.facts.contents[digest], wants=[201])
        return lambda: self.asks("DELETE", f"{repository}/manifests/unknown", wants=[202])

    def adds_a_referrer(self):
        repository, _ = self.one("manifest")
        body = json.dumps({"schemaVersion": 2, "manifests": [], "subject": {"digest": SUBJECT}}).encode()
        self.asks("PUT", f"{repository}/manifests/{sha256(body)}", body, wants=[201])
        return lambda: self.asks("DELETE", f"{repository}/manifests/{sha256(body)}", wants=[202])

    def changes_a_media_type(self):
        repository, digest = self.one("manifest")
        self.facts.registers["manifest", repository, digest].is_now("application/other")

    def adds_to_an_upload(self):
        self.asks("PATCH", self.facts.uploads[0].location, b"more", BYTES, wants=[202])

    def loses_bytes_of_an_upload(self):
        upload = self.facts.uploads[-1]
        upload.sent += b"more"
        upload.promised = len(upload.sent)

    def abandons_an_upload(self):
        self.asks("DELETE", self.facts.uploads[0].location, wants=[204])

    def opens_an_upload_again(self):
        self.facts.ended.append(self.facts.uploads[0].location)

    def uses_more(self):
        self.asks("POST", f"other/unknown/blobs/uploads/?digest={sha256(b'unknown')}", b"unknown", BYTES, wants=[201])
        return lambda: self.asks("DELETE", f"other/unknown/blobs/{sha256(b'unknown')}", wants=[202])


# The number of open uploads that the changes need: a comparison gives up one that it does not find.
UPLOADS = 3

KINDS = [
    Tampering.deletes_a_tag, Tampering.deletes_a_manifest, Tampering.deletes_a_blob, Tampering.puts_a_blob_back, Tampering.moves_a_tag,
    Tampering.changes_a_media_type, Tampering.loses_bytes_of_an_upload, Tampering.adds_to_an_upload, Tampering.abandons_an_upload,
    Tampering.opens_an_upload_again, Tampering.uses_more, Tampering.adds_a_tag, Tampering.adds_a_referrer,
]


def has_enough(facts):
    """Returns whether there is something to change of each kind."""
    tampering = Tampering("tampering", facts, 0)
    try:
        return all([tampering.one("tag"), tampering.one("manifest"), tampering.free_blob(), len(facts.uploads) >= UPLOADS])
    except (StopIteration, AssertionError):
        return False


def missed(server, facts):
    """Makes each change. Returns the names of those that the comparisons do not find."""
    tampering, found = Tampering("tampering", facts, 0), []
    tampering.connects(server)
    if wrong := Look(server, facts, 0).everything():
        raise Fault(f"before any change: {wrong[0]}")
    for kind in KINDS:
        undo = kind(tampering)
        if not Look(server, facts, 0).everything():
            found.append(kind.__name__)
        if undo:
            undo()
        facts.ended = [location for location in facts.ended if location not in {upload.location for upload in facts.uploads}]
    return found
