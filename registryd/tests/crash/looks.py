"""Compares everything in a registry with what its clients know."""
import concurrent.futures
import hashlib
import json
import re
import threading

from crash.asking import BYTES, Asker
from crash.facts import SUBJECT
from server import sha256

# The number of repositories that are compared at the same time.
READERS = 4


class Look(Asker):
    """Reads everything after a start. What it finds is what the clients know from then on."""

    def __init__(self, server, facts, seed, finds_no_room=False):
        """`finds_no_room`: one write of the database may find no room meanwhile, after which the registry goes on."""
        super().__init__("look", facts, seed)
        self.server, self.wrong, self.comparisons, self.in_flight = server, [], 0, 0
        self.finds_no_room = finds_no_room
        self.own = threading.local()

    @property
    def client(self):
        """Returns the connection of this thread."""
        if not hasattr(self.own, "client"):
            self.own.client = self.server.client()
        return self.own.client

    @client.setter
    def client(self, _):
        pass

    def compares(self, name, is_right, found):
        self.comparisons += 1
        if not is_right:
            self.wrong.append(f"{name}: {str(found)[:200]}")

    def everything(self):
        """Compares all. Returns what is wrong."""
        self.facts.settles()
        with concurrent.futures.ThreadPoolExecutor(READERS) as pool:
            list(pool.map(self.repository, self.facts.repositories()))
            list(pool.map(self.upload, list(self.facts.uploads)))
            list(pool.map(self.over, list(self.facts.ended)))
        self.use()
        return self.wrong

    def finds(self, key, value):
        """Compares a value, and takes it for the right one."""
        register = self.facts.registers[key]
        self.in_flight += len(register.possible()) > 1
        self.compares(f"{' '.join(key)} is one of {register.possible()}", register.fits(value), value)
        register.is_now(value)

    # tags, manifests and blobs

    def repository(self, repository):
        listed = self.listed(repository)
        tags = self.facts.keys("tag", repository)
        for tag in tags:
            self.tag(repository, tag, tag in listed)
        self.compares(f"all tags in the list of {repository} were put", listed <= set(tags), listed)
        missing = self.facts.referrers(repository) - self.referrers(repository)
        self.compares(f"the referrers of {repository} that were answered are listed", not missing, missing)
        for digest in self.facts.keys("manifest", repository):
            self.manifest(repository, digest)
        # Each manifest that is there was asked for by its digest, so it is listed. If there was no room to list it, it is asked for again.
        referrers = self.referrers(repository)
        if self.finds_no_room and referrers != self.facts.referrers(repository):
            for digest in self.facts.referrers(repository) - referrers:
                self.manifest(repository, digest)
            referrers = self.referrers(repository)
        self.compares(f"the referrers of {repository} are those that are there", referrers == self.facts.referrers(repository), referrers)
        for digest in self.facts.keys("blob", repository):
            self.blob(repository, digest)
        for digest in self.facts.present("manifest", repository):
            parts = self.facts.digests[digest]
            missing = [part for part in parts if self.facts.value("blob", repository, part) is None]
            self.compares(f"the blobs of the manifest {digest} of {repository} are there", not missing, missing)

    def referrers(self, repository):
        answer = self.asks("GET", f"{repository}/referrers/{SUBJECT}", wants=[200])
        return {one["digest"] for one in json.loads(answer.body)["manifests"]}

    def listed(self, repository):
        answer = self.asks("GET", f"{repository}/tags/list", wants=[200, 404])
        return set(json.loads(answer.body)["tags"]) if answer.status == 200 else set()

    def named(self, repository, reference):
        """Returns the digest and the media type that a reference names, or nothing. Compares the bytes."""
        answer = self.asks("GET", f"{repository}/manifests/{reference}", wants=[200, 404])
        if answer.status == 404:
            return None, None
        digest = sha256(answer.body)
        name = f"the manifest {reference} of {repository}"
        self.compares(f"the digest of {name} is that of its bytes", answer["Docker-Content-Digest"] == digest, answer["Docker-Content-Digest"])
        self.learns(repository, digest, answer.body)
        self.compares(f"{name} has the bytes that were put", answer.body == self.facts.contents[digest], answer.body)
        return digest, answer["Content-Type"]

    def learns(self, repository, digest, body):
        """Notes a manifest that only its client knew, and its blobs in a repository."""
        with self.facts.lock:
            if digest not in self.facts.contents:
                self.facts.keeps(digest, body)
                self.facts.digests[digest] = re.findall(r"sha256:[0-9a-f]{64}", body.decode())
            for part in self.facts.digests[digest]:
                if ("blob", repository, part) not in self.facts.registers:
                    self.facts.registers["blob", repository, part].is_now(True)

    def tag(self, repository, tag, is_listed):
        digest, kind = self.named(repository, tag)
        self.compares(f"{repository}:{tag} can be read if it is in the list", is_listed == (digest is not None), digest)
        self.finds(("tag", repository, tag), digest)
        if digest:
            by_digest = self.named(repository, digest)
            self.compares(f"{repository}:{tag} is as by its digest", by_digest == (digest, kind), by_digest)

    def manifest(self, repository, digest):
        found, kind = self.named(repository, digest)
        if found:
            self.compares(f"the manifest {digest} of {repository} has its digest", found == digest, found)
        self.finds(("manifest", repository, digest), kind)

    def blob(self, repository, digest):
        answer = self.asks("GET", f"{repository}/blobs/{digest}", wants=[200, 404])
        if answer.status == 200:
            algorithm, text = digest.split(":")
            is_right = hashlib.new(algorithm, answer.body).hexdigest() == text
            self.compares(f"the blob {digest} of {repository} has its bytes", is_right, answer.body)
        self.finds(("blob", repository, digest), True if answer.status == 200 else None)

    # uploads

    def upload(self, upload):
        """Compares the length of an upload, which its client knows from then on. A chunk at a wrong place asks for it too."""
        if self.rng.random() < 0.3:
            place = len(upload.sent) + 10
            headers = {**BYTES, "Content-Range": f"{place}-{place + 1}"}
            answer = self.asks("PATCH", upload.location, b"no", headers, wants=[416, 404])
        else:
            answer = self.asks("GET", upload.location, wants=[204, 404])
        ending, name = upload.ending, f"the upload {upload.location}"
        if answer.status == 404:
            self.compares(f"{name} is there", ending is not None, 404)
            if ending and ending != "abandoned":
                blob = self.facts.value("blob", upload.repository, ending)
                self.compares(f"{name} or its blob is there", blob is not None, None)
            with self.facts.lock:
                self.facts.uploads.remove(upload)
                self.facts.ended.append(upload.location)
            return
        length = int(answer["Range"].split("-")[1]) + 1
        length = 0 if length == 1 else length  # the range of no byte is that of one byte; nobody sends one byte
        least, most = upload.promised, len(upload.sent)
        self.compares(f"{name} has from {least} to {most} bytes", least <= length <= most, length)
        if ending and ending != "abandoned":
            blob = self.facts.value("blob", upload.repository, ending)
            self.compares(f"{name} or its blob is there, and not both", blob is None, blob)
        upload.sent = upload.sent[:length]
        upload.length = upload.promised = length
        upload.chunks, upload.ending = [], None

    def over(self, location):
        self.compares(f"the upload {location} has ended", self.asks("GET", location).status == 404, "it is there")

    def use(self):
        """Compares each tenant's use with its blobs and uploads. Uploads of which no client knows may have bytes too."""
        known = len(self.facts.uploads)
        count = int(self.server.metric("registryd_uploads"))
        self.compares(f"the number of open uploads is at least {known}", count >= known, count)
        for tenant in self.facts.tenants:
            used = int(self.server.metric(f'registryd_tenant_used_bytes{{tenant="{tenant}"}}'))
            least = self.facts.use(tenant)
            name = f"the use of tenant {tenant} is {'' if count == known else 'at least '}{least}"
            self.compares(name, used == least or used > least and count > known, used)

    # the end of a folder

    def finishes(self):
        """Closes each open upload with more bytes, and reads its blob. Its first bytes must be those that were sent."""
        for upload in list(self.facts.uploads):
            data = upload.sent + b"the rest"
            digest = sha256(data)
            headers = {**BYTES, "Content-Range": f"{upload.length}-{len(data) - 1}"}
            answer = self.asks("PUT", f"{upload.location}?digest={digest}", b"the rest", headers)
            self.compares(f"the upload {upload.location} goes on after {upload.length} bytes", answer.status == 201, answer.body)
            self.facts.uploads.remove(upload)
            self.facts.registers["blob", upload.repository, digest].is_now(True)
            self.blob(upload.repository, digest)

    def removes(self):
        """Deletes everything that is known, of the tenants of which all is known."""
        for kind in ("manifest", "blob"):
            for repository in (name for name in self.facts.repositories() if name.split("/")[0] in self.facts.tenants):
                for name in self.facts.present(kind, repository):
                    status = self.asks("DELETE", f"{repository}/{kind}s/{name}").status
                    self.compares(f"a delete of the {kind} {name} of {repository}", status == 202, status)
