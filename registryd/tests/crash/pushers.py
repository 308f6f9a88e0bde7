"""skopeo and podman as clients: they push images, copy them within the registry, and delete them."""
import json
import os
import shutil
import subprocess
import time

from clients import Podman, run
from crash.asking import Asker, Interrupted
from crash.facts import SOME
from images import image, skopeo
from server import MANIFEST

TAGS = ("v1", "v2", "v3")

# The number of images that podman has, and the greatest number that skopeo pushes into one registry.
IMAGES, MOST_IMAGES = 3, 8


class Pusher(Asker):
    """Runs a program for each change. Programs that fail have to be those that a kill interrupts."""

    def __init__(self, tenant, name, facts, seed, folder):
        super().__init__(f"{tenant}/{name}", facts, seed)
        self.folder = folder
        self.repositories = [f"{tenant}/{name}-one", f"{tenant}/{name}-two"]

    def runs(self, program, *words):
        """Runs a program. The registry serves several requests for it, of which one is counted."""
        self.requests += 1
        try:
            return program(*words)
        except (AssertionError, subprocess.TimeoutExpired) as error:
            raise Interrupted(str(error)[-500:]) from None

    def at(self, repository, reference):
        return f"docker://{self.server.address}/{repository}{reference}"

    def puts(self, repository, tag, digest, blobs):
        """Returns the change of a push."""
        change = self.facts.change()
        for blob in blobs:
            change.sets(("blob", repository, blob), True)
        change.sets(("manifest", repository, digest), MANIFEST)
        change.sets(("tag", repository, tag), digest)
        return change.begins()


class Skopeo(Pusher):
    """Pushes new images of a few layers."""

    def __init__(self, *words):
        super().__init__(*words)
        self.images = []  # the digests of images that were made

    def makes(self):
        """Makes an image, and returns its folder and its digest."""
        folder = f"{self.folder}/{len(self.images)}"
        sizes = [self.rng.choice([100, 800, 4000]) for _ in range(self.rng.randint(1, 4))]
        digest = image(folder, sizes, self.rng.randrange(1 << 40))
        for name in os.listdir(f"{folder}/blobs/sha256"):
            with open(f"{folder}/blobs/sha256/{name}", "rb") as file:
                self.facts.keeps(f"sha256:{name}", file.read())
        manifest = json.loads(self.facts.contents[digest])
        self.facts.digests[digest] = [part["digest"] for part in [manifest["config"], *manifest["layers"]]]
        self.images.append(digest)
        return folder, digest

    def turn(self):
        draw = self.rng.random()
        if draw < 0.55 or not any(self.facts.present("tag", repository) for repository in self.repositories):
            self.pushes()
        elif draw < 0.85:
            self.copies()
        else:
            self.deletes()

    def pushes(self):
        repository, tag = self.rng.choice(self.repositories), self.rng.choice(TAGS)
        if len(self.images) < MOST_IMAGES:
            folder, digest = self.makes()
        else:
            number = self.rng.randrange(len(self.images))
            folder, digest = f"{self.folder}/{number}", self.images[number]
        change = self.puts(repository, tag, digest, self.facts.digests[digest])
        self.runs(skopeo, "copy", "--dest-tls-verify=false", f"oci:{folder}:latest", self.at(repository, f":{tag}"))
        change.answered()

    def copies(self):
        """Copies an image to the other repository, where its blobs are mounted."""
        source, repository = self.rng.sample(self.repositories, 2)
        tags = self.facts.present("tag", source)
        if not tags:
            return
        tag, to = self.rng.choice(tags), self.rng.choice(TAGS)
        digest = self.facts.value("tag", source, tag)
        change = self.puts(repository, to, digest, self.facts.digests[digest])
        plain = ["--src-tls-verify=false", "--dest-tls-verify=false"]
        self.runs(skopeo, "copy", *plain, self.at(source, f":{tag}"), self.at(repository, f":{to}"))
        change.answered()

    def deletes(self):
        """Deletes the manifest that a tag names, with all of its tags."""
        repository = self.rng.choice(self.repositories)
        tags = self.facts.present("tag", repository)
        if not tags:
            return
        tag = self.rng.choice(tags)
        digest = self.facts.value("tag", repository, tag)
        change = self.facts.change()
        change.sets(("manifest", repository, digest), None)
        for name in self.facts.keys("tag", repository):
            change.sets(("tag", repository, name), None, only=digest)
        change.begins()
        self.runs(skopeo, "delete", "--tls-verify=false", self.at(repository, f":{tag}"))
        change.answered()


class PodmanPusher(Pusher):
    """Pushes images of a local store. Which blobs podman makes of them is known after a push."""

    def __init__(self, tenant, name, facts, seed, folder, store):
        super().__init__(tenant, name, facts, seed, folder)
        self.store = store

    def turn(self):
        repository, tag = self.rng.choice(self.repositories), self.rng.choice(TAGS)
        change = self.facts.change()
        change.sets(("tag", repository, tag), SOME)
        change.begins()
        file = f"{self.folder}/pushed"
        words = ["push", "-q", "--tls-verify=false", "--digestfile", file, self.rng.choice(self.store.images), self.at(repository, f":{tag}")]
        self.runs(self.unless_dying, *self.store.client.words, *words)
        with open(file) as pushed:
            digest = pushed.read().strip()
        change.parts[0][1].value = digest
        with self.facts.lock:
            self.facts.registers["manifest", repository, digest].is_now(SOME)
        change.answered()

    def unless_dying(self, *words):
        """Runs a program. If the registry dies, the program is killed, since it would try again for some seconds."""
        pushing = subprocess.Popen(words, stdin=subprocess.DEVNULL, stdout=subprocess.DEVNULL, stderr=subprocess.PIPE, text=True)
        while pushing.poll() is None:
            if self.server.is_dying:
                time.sleep(0.1)
                pushing.kill()
            time.sleep(0.01)
        text = pushing.communicate()[1]
        assert pushing.returncode == 0, text[-500:]


class PodmanStore:
    """A local store of podman with some images, or none if podman cannot be started here."""

    def __init__(self, folder):
        self.client, self.images = Podman(str(folder)), []
        if not shutil.which("podman") or os.getuid() != 0:
            return
        for number in range(IMAGES):
            image(f"{folder}/image{number}", [100, 900], 1000 + number)
            try:
                self.images.append(run(*self.client.words, "pull", "-q", f"oci:{folder}/image{number}:latest"))
            except AssertionError:
                return

    def clears(self):
        if self.images:
            run(*self.client.words, "rmi", "-a", "-f")
