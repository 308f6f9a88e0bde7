"""Folders of `--data` that the programs of a version left, as archives in `folders/`, and the facts that each has to serve."""
import json, os, re, tarfile

from referrers import artifact, descriptor, index
from restarts import CONFIG, PATCH, by_kill_of_both, by_signal, opened, push, push_manifest, without_number
from server import INDEX, MANIFEST, manifest_of, serving, sha256

HERE = os.path.dirname(os.path.abspath(__file__))
KEPT = f"{HERE}/folders"
DOCKER = "application/vnd.docker.distribution.manifest.v2+json"

# Each archive has the folder after its programs were killed, and after they ended.
STATES = ("killed", "ended")

# A file of zeros, which takes room and has no content.
RESERVE = "reserve"

# Longer than the shortest file of the log that is closed. It is packed well.
LONG = 1_200_000

# The bytes of the open upload, and how many of them the version before received.
UPLOAD, SENT = 90_000, 60_000


def upload_bytes(length):
    return (b"an upload goes on " * (length // 18 + 1))[:length]


def versions():
    """Returns the names of the archives."""
    return sorted(name.removesuffix(".tar.xz") for name in os.listdir(KEPT) if name.endswith(".tar.xz"))


def this_database():
    """Returns the version of the database that the sources have."""
    with open(f"{os.path.dirname(HERE)}/src/database/schema.rs", encoding="utf-8") as file:
        return int(re.search(r"VERSION: i64 = (\d+);", file.read()).group(1))


def database_of(name):
    """Returns the version of the database in an archive."""
    with tarfile.open(f"{KEPT}/{name}.tar.xz") as tar:
        return json.load(tar.extractfile("facts.json"))["database"]


def earlier_versions():
    """Returns the names of the archives whose database a start completes."""
    return [name for name in versions() if database_of(name) < this_database()]


def database_version(path):
    """Returns the version of the database of a folder whose programs have ended. Other files of the database stay as they are."""
    with open(f"{path}/registry.db", "rb") as file:
        # The field "user version" of the head (SQLite's file format, 1.3).
        return int.from_bytes(file.read(64)[60:64], "big")


def read(path):
    with open(path, "rb") as file:
        return file.read()


def content_of(path):
    """Returns the bytes of each file of a folder by its name, but for the reserve, and so those of contents. The folder of the owner has the
    names of its files."""
    found = {}
    for name in sorted(set(os.listdir(path)) - {RESERVE}):
        if name == "contents":
            for tenant in os.listdir(f"{path}/{name}"):
                found.update((f"{name}/{tenant}/{number}", read(f"{path}/{name}/{tenant}/{number}")) for number in os.listdir(f"{path}/{name}/{tenant}"))
            continue
        if os.path.isdir(f"{path}/{name}"):
            assert without_number(name) not in found, "two owners"
            found[without_number(name)] = sorted(os.listdir(f"{path}/{name}"))
            continue
        found[name] = read(f"{path}/{name}")
    return found


class Filling:
    """Pushes what each kind of row and of record has, and notes the facts as they were sent."""

    def __init__(self, client):
        self.client = client
        self.facts = {"tags": {}, "manifests": {}, "blobs": {}, "referrers": {}, "gone": [], "uploads": []}

    def blob(self, repo, data):
        push(self.client, repo, data)
        self.facts["blobs"].setdefault(repo, []).append(sha256(data))

    def manifest(self, repo, content, *tags, kind=MANIFEST):
        for reference in tags or [sha256(content)]:
            push_manifest(self.client, repo, reference, content, kind)
        self.facts["manifests"].setdefault(repo, {})[sha256(content)] = [kind, content.decode()]
        self.facts["tags"].setdefault(repo, {}).update(dict.fromkeys(tags, sha256(content)))

    def image(self, repo, layer, *tags, kind=MANIFEST):
        """Pushes an image with one layer, and returns its manifest."""
        for data in (CONFIG, layer):
            self.blob(repo, data)
        content = manifest_of(CONFIG, [layer]).replace(MANIFEST.encode(), kind.encode())
        self.manifest(repo, content, *tags, kind=kind)
        return content

    def delete(self, path):
        answer = self.client.ask("DELETE", path)
        assert answer.status == 202, (path, answer.status)
        self.facts["gone"].append(path)

    def content(self):
        """Images, an index, an artifact, a moved tag, a mount, and deletes."""
        one, two = (self.image("acme/web", name, f"v{number}") for number, name in enumerate((b"one", b"two"), 1))
        self.manifest("acme/web", one, "moved")
        self.manifest("acme/web", two, "moved", "latest")
        self.image("acme/web", b"three", "docker", kind=DOCKER)
        self.image("acme/deep/er/name", b"four")
        self.manifest("acme/web", index(descriptor(one), descriptor(two)), "all", kind=INDEX)
        described = artifact(one, artifactType="text/plain")
        self.manifest("acme/web", described)
        self.facts["referrers"][f"/v2/acme/web/referrers/{sha256(one)}"] = [sha256(described)]
        mounted = self.client.ask("POST", f"/v2/acme/copy/blobs/uploads/?mount={sha256(b'one')}&from=acme/web")
        assert mounted.status == 201, mounted.status
        self.facts["blobs"]["acme/copy"] = [sha256(b"one")]
        self.image("other/gone", b"gone")
        (gone, _), = self.facts["manifests"].pop("other/gone").items()
        for kind, digest in (("manifests", gone), *(("blobs", digest) for digest in self.facts["blobs"].pop("other/gone"))):
            self.delete(f"/v2/other/gone/{kind}/{digest}")
        self.manifest("acme/web", one, "deleted")
        self.delete("/v2/acme/web/manifests/deleted")
        del self.facts["tags"]["acme/web"]["deleted"]

    def rewritten(self):
        """Leaves a log of which less than half is needed, so that the next start rewrites it."""
        self.blob("acme/long", bytes(LONG))
        self.delete(f"/v2/acme/long/blobs/{self.facts['blobs'].pop('acme/long').pop()}")

    def closed(self):
        """Lets a file of the log be long enough to be closed, and writes the next one."""
        self.blob("acme/long", b"1" * LONG)
        self.image("acme/web", b"later", "later")

    def upload(self):
        at = opened(self.client, "acme/open")
        assert self.client.ask("PATCH", at, upload_bytes(SENT), PATCH).status == 202
        self.facts["uploads"].append({"at": at, "repo": "acme/open", "sent": SENT, "length": UPLOAD})


def serving_folder(path, *words):
    """Starts a registry on a folder. The first versions know no shares of a tenant."""
    return serving("--data", path, *words, tenants=("acme=1000000000", "other=1000000000"))


def fill(path):
    """Fills a new folder by the programs of this test, which are killed at the end. Returns its facts."""
    # Each chunk is in the log before its reply.
    words = (path, "--sync", "each")
    with serving_folder(*words) as server:
        filling = Filling(server.client())
        filling.content()
        filling.rewritten()
        by_signal(server)
    with serving_folder(*words) as server:
        filling.client = server.client()
        filling.closed()
        filling.upload()
        by_kill_of_both(server)
    return filling.facts


def make(name, path):
    """Packs a folder that the programs of this test fill as the archive of a version."""
    facts = fill(path)
    with tarfile.open(f"{KEPT}/{name}.tar.xz", "w:xz", preset=9) as tar:
        add(tar, path, "killed")
        with serving_folder(path) as server:
            by_signal(server)
        add(tar, path, "ended")
        with open(f"{path}.json", "w") as file:
            json.dump({"database": database_version(path), **facts}, file)
        tar.add(f"{path}.json", "facts.json", filter=nobodys)


def nobodys(entry):
    """Removes who made a file, and when."""
    entry.uid = entry.gid = entry.mtime = 0
    entry.uname = entry.gname = ""
    return entry


def add(tar, path, state):
    tar.add(path, state, filter=lambda entry: None if os.path.basename(entry.name) == RESERVE else nobodys(entry))


def unpack(name, path):
    """Unpacks the archive of a version. Returns its facts."""
    with tarfile.open(f"{KEPT}/{name}.tar.xz") as tar:
        for entry in tar:
            # As the owner of this process.
            tar.extract(entry, path)
    with open(f"{path}/facts.json") as file:
        return json.load(file)


def check_served(client, facts):
    """Checks that a registry serves what was pushed, by tag and by digest, and nothing that was deleted."""
    for repo, manifests in facts["manifests"].items():
        tags = facts["tags"][repo]
        for reference, digest in [*tags.items(), *((digest, digest) for digest in manifests)]:
            answer = client.ask("GET", f"/v2/{repo}/manifests/{reference}")
            kind, content = manifests[digest]
            assert (answer.status, answer["Content-Type"], answer.body.decode()) == (200, kind, content), (repo, reference, answer.status)
        listed = client.ask("GET", f"/v2/{repo}/tags/list")
        assert json.loads(listed.body)["tags"] == sorted(tags), (repo, listed.body)
    for repo, digests in facts["blobs"].items():
        for digest in digests:
            answer = client.ask("GET", f"/v2/{repo}/blobs/{digest}")
            assert answer.status == 200 and sha256(answer.body) == digest, (repo, digest, answer.status)
    for path, digests in facts["referrers"].items():
        listed = json.loads(client.ask("GET", path).body)["manifests"]
        assert [entry["digest"] for entry in listed] == digests, (path, listed)
    for path in facts["gone"]:
        assert client.ask("GET", path).status == 404, path


def check_uploads(client, facts):
    """Continues each open upload from the length that it has."""
    for upload in facts["uploads"]:
        at, whole = upload["at"], upload_bytes(upload["length"])
        answer = client.ask("GET", at)
        assert (answer.status, answer["Range"]) == (204, f"0-{upload['sent'] - 1}"), (at, answer.status, answer["Range"])
        assert client.ask("PATCH", at, whole[upload["sent"]:], PATCH).status == 202, at
        assert client.ask("PUT", f"{at}?digest={sha256(whole)}").status == 201, at
        assert client.ask("GET", f"/v2/{upload['repo']}/blobs/{sha256(whole)}").body == whole, at
