"""Clients that push while something happens to a registry, and the checks of what was acknowledged to them."""
import http.client, itertools, json, os, random, subprocess, tempfile, threading, time, zlib

from images import image, same_blobs, skopeo
from server import MANIFEST, Client, manifest_of, sha256

CONTENT = {"Content-Type": "application/octet-stream"}
CONFIG = b"{}"


class Pushing(threading.Thread):
    """Pushes images one after the other, each with a tag of its own. A push that fails is done again."""

    def __init__(self, repo, pause=0.05):
        super().__init__(daemon=True)
        self.repo, self.pause = repo, pause
        self.is_stopped = threading.Event()
        # The images whose push was acknowledged, by their tags, and the number of pushes that failed.
        self.pushed, self.failed, self.unexpected = {}, 0, None
        self.start()

    def run(self):
        try:
            for number in itertools.count():
                while not self.push(f"v{number}"):
                    self.failed += 1
                    if self.is_stopped.wait(0.5):
                        return
                if self.is_stopped.wait(self.pause):
                    return
        except Exception as error:
            self.unexpected = error

    def stop(self):
        """Ends it after the push in progress. Returns the images that were acknowledged."""
        self.is_stopped.set()
        self.join(60)
        assert not self.is_alive(), f"{self.repo}: a push does not end"
        if self.unexpected:
            raise self.unexpected
        return dict(self.pushed)

    def wait_for(self, count, seconds=60):
        """Waits until this number of images are pushed more."""
        goal, end = len(self.pushed) + count, time.time() + seconds
        while len(self.pushed) < goal:
            assert time.time() < end and not self.unexpected, f"{self.repo}: no push succeeds: {self.unexpected}"
            time.sleep(0.02)


class Raw(Pushing):
    """Speaks HTTP. Each image has one layer, sent in two requests, and a config. It gets the tag `latest` too."""

    def __init__(self, address, repo, **options):
        # The manifests that were sent, in their order.
        self.client, self.sent = Client(address), []
        super().__init__(repo, **options)

    def push(self, tag):
        layer = random.Random(f"{self.repo}:{tag}").randbytes(random.Random(tag).randrange(100_000))
        try:
            return self.push_image(tag, layer)
        except (OSError, http.client.HTTPException):
            self.client.connection.close()
            return False

    def push_image(self, tag, layer):
        ask = self.client.ask
        begun = ask("POST", f"/v2/{self.repo}/blobs/uploads/")
        if begun.status != 202:
            return False
        if ask("PATCH", begun["Location"], layer, CONTENT).status != 202:
            return False
        if ask("PUT", f"{begun['Location']}?digest={sha256(layer)}").status != 201:
            return False
        if ask("POST", f"/v2/{self.repo}/blobs/uploads/?digest={sha256(CONFIG)}", CONFIG, CONTENT).status != 201:
            return False
        manifest = manifest_of(CONFIG, [layer])
        if manifest not in self.sent[-1:]:
            self.sent.append(manifest)
        for name in (tag, "latest"):
            if ask("PUT", f"/v2/{self.repo}/manifests/{name}", manifest, {"Content-Type": MANIFEST}).status != 201:
                return False
            self.pushed[name] = (manifest, layer)
        return True

    def check(self, client, pushed):
        """Checks that images that were acknowledged are there, byte for byte. `latest` may name a later image."""
        for tag, (manifest, layer) in pushed.items():
            if tag == "latest":
                answer = client.ask("GET", f"/v2/{self.repo}/manifests/{tag}")
                assert answer.status == 200 and answer.body in self.sent[self.sent.index(manifest):], (self.repo, tag, answer.status)
                continue
            answer = client.ask("GET", f"/v2/{self.repo}/manifests/{tag}")
            assert (answer.status, answer.body, answer["Content-Type"]) == (200, manifest, MANIFEST), (self.repo, tag, answer.status)
            assert client.ask("GET", f"/v2/{self.repo}/manifests/{sha256(manifest)}").body == manifest, (self.repo, tag)
            for data in (layer, CONFIG):
                answer = client.ask("GET", f"/v2/{self.repo}/blobs/{sha256(data)}")
                assert (answer.status, answer.body) == (200, data), (self.repo, tag, answer.status)


class Skopeo(Pushing):
    """Pushes images with two layers by `skopeo`."""

    def __init__(self, address, repo, **options):
        self.address, self.folder = address, tempfile.TemporaryDirectory()
        super().__init__(repo, **options)

    def push(self, tag):
        made = f"{self.folder.name}/{tag}"
        if not os.path.exists(made):
            image(made, [20_000, 300_000], zlib.crc32(f"{self.repo}:{tag}".encode()))
        words = ["skopeo", "--insecure-policy", "copy", "-q", "--dest-tls-verify=false", f"oci:{made}:latest"]
        ended = subprocess.run([*words, f"docker://{self.address}/{self.repo}:{tag}"], stderr=subprocess.PIPE, text=True, timeout=120)
        if ended.returncode == 0:
            self.pushed[tag] = made
        return ended.returncode == 0

    def check(self, client, pushed):
        """Checks that `skopeo` pulls the images that were acknowledged, byte for byte."""
        for tag, made in pushed.items():
            with tempfile.TemporaryDirectory() as back:
                at = f"docker://{client.connection.host}:{client.connection.port}/{self.repo}:{tag}"
                skopeo("copy", "-q", "--src-tls-verify=false", at, f"oci:{back}/image:latest")
                same_blobs(made, f"{back}/image")


def tags(client, repo):
    """Returns the tags of a repository, of all pages of the list."""
    found, path = [], f"/v2/{repo}/tags/list?n=1000"
    while path:
        answer = client.ask("GET", path)
        assert answer.status == 200, (repo, answer.status)
        found += json.loads(answer.body)["tags"]
        path = answer["Link"] and answer["Link"].removeprefix("<").partition(">")[0]
    return found


def check_listed(client, repo):
    """Checks that each tag of a list can be pulled, and that each blob has its digest. Returns the tags."""
    listed = tags(client, repo)
    for tag in listed:
        answer = client.ask("GET", f"/v2/{repo}/manifests/{tag}")
        assert answer.status == 200, (repo, tag, answer.status)
        manifest = json.loads(answer.body)
        for part in [manifest["config"], *manifest["layers"]]:
            blob = client.ask("GET", f"/v2/{repo}/blobs/{part['digest']}")
            assert blob.status == 200 and sha256(blob.body) == part["digest"], (repo, tag, part["digest"], blob.status)
    return listed
