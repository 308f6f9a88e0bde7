#!/usr/bin/env python3
"""A program with a library of Go pushes, pulls and deletes while the collector sweeps. The library is oras-go or the
client of docker's registry (docker/distribution). After everything is deleted, the store has to be empty.
libraries.py oras|distribution. The program is built from Debian's sources. The folder target/go keeps what was compiled."""
import json, os, subprocess, sys, tempfile

from server import MANIFEST, TOP, serving


def build():
    """Builds the program, and returns its path."""
    program = f"{TOP}/target/libraries"
    places = {"GOPATH": "/usr/share/gocode", "GOCACHE": f"{TOP}/target/go", "GO111MODULE": "off", "GOFLAGS": ""}
    command = ["go", "build", "-o", program, "."]
    subprocess.run(command, cwd=f"{TOP}/tests/libraries", env={**os.environ, **places}, check=True, timeout=500)
    return program


def clear_artifacts(http):
    """Checks the list of the referrers, and deletes what oras-go has left."""
    at = "/v2/acme/artifacts"
    found = {tag: http.ask("GET", f"{at}/manifests/{tag}") for tag in ("v1", "description")}
    digests = {tag: answer["Docker-Content-Digest"] for tag, answer in found.items()}
    listed = json.loads(http.ask("GET", f"{at}/referrers/{digests['v1']}").body)["manifests"]
    size = len(found["description"].body)
    expected = {"mediaType": MANIFEST, "digest": digests["description"], "size": size, "artifactType": "text/plain"}
    assert listed == [expected], listed
    manifests = [json.loads(answer.body) for answer in found.values()]
    blobs = {part["digest"] for manifest in manifests for part in [manifest["config"], *manifest["layers"]]}
    for path in [*(f"manifests/{digest}" for digest in digests.values()), *(f"blobs/{blob}" for blob in blobs)]:
        assert http.ask("DELETE", f"{at}/{path}").status == 202, path


def main():
    name, program = sys.argv[1], build()
    with tempfile.TemporaryDirectory() as folder, serving("--slots", "128", "--sweep-ms", "0") as server:
        # oras-go reads the logins of this folder.
        ended = subprocess.run([program, name, server.address], env={**os.environ, "DOCKER_CONFIG": folder}, timeout=60)
        assert ended.returncode == 0, f"status {ended.returncode}"
        if name == "oras":
            clear_artifacts(server.client())
        assert not server.left(), server.left()
        assert server.end() == 0
    print(f"{name}: the library pushed, pulled and deleted; the store is empty")


if __name__ == "__main__":
    main()
