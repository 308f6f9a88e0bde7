#!/usr/bin/env python3
"""skopeo pushes an image, pulls it by tag and by digest, copies it within the registry and deletes it. The image pulled has
to equal the one pushed, and after a sweep the store has to be empty. It does the same with an index of two images, and
pushes an artifact that describes an image. It waits while the tenant has too many uploads."""
import filecmp, gzip, io, json, os, random, shutil, subprocess, tarfile, tempfile, threading

from playing import LASTING
from server import INDEX, MANIFEST, serving, sha256


def layer(name, size, seed):
    """Returns a compressed layer of random bytes, which clients send unchanged, and the digest of its content."""
    plain, packed = io.BytesIO(), io.BytesIO()
    with tarfile.open(fileobj=plain, mode="w") as tar:
        info = tarfile.TarInfo(name)
        info.size = size
        tar.addfile(info, io.BytesIO(random.Random(seed).randbytes(size)))
    with gzip.GzipFile(fileobj=packed, mode="wb", compresslevel=0, mtime=0) as out:
        out.write(plain.getvalue())
    return packed.getvalue(), sha256(plain.getvalue())


def keep(top, media_type, data):
    """Writes a blob into an OCI layout, and returns its descriptor."""
    with open(f"{top}/blobs/sha256/{sha256(data)[7:]}", "wb") as file:
        file.write(data)
    return {"mediaType": media_type, "digest": sha256(data), "size": len(data)}


def finish(top, manifest, tag="latest"):
    """Writes the files of an OCI layout that name its manifest."""
    index = {"schemaVersion": 2, "manifests": [{**manifest, "annotations": {"org.opencontainers.image.ref.name": tag}}]}
    for file, value in (("index.json", index), ("oci-layout", {"imageLayoutVersion": "1.0.0"})):
        with open(f"{top}/{file}", "w") as out:
            json.dump(value, out)


def image(top, sizes, seed, tag="latest"):
    """Writes the OCI layout of an image with layers of these sizes, and returns its manifest's digest."""
    os.makedirs(f"{top}/blobs/sha256")
    layers = [layer(f"file-{n}", size, seed + n) for n, size in enumerate(sizes)]
    kept = [keep(top, "application/vnd.oci.image.layer.v1.tar+gzip", data) for data, _ in layers]
    config = {"architecture": "amd64", "os": "linux", "config": {"Cmd": ["/file-0"]},
              "rootfs": {"type": "layers", "diff_ids": [plain for _, plain in layers]}}
    config = keep(top, "application/vnd.oci.image.config.v1+json", json.dumps(config).encode())
    manifest = {"schemaVersion": 2, "mediaType": MANIFEST, "config": config, "layers": kept}
    manifest = keep(top, MANIFEST, json.dumps(manifest).encode())
    finish(top, manifest, tag)
    return manifest["digest"]


def skopeo(*words):
    policy = ["--insecure-policy"]
    ended = subprocess.run(["skopeo", *policy, *words], stdout=subprocess.PIPE, stderr=subprocess.PIPE, text=True, timeout=120)
    assert ended.returncode == 0, f"skopeo {' '.join(words)}: {ended.stderr[-500:]}"
    return ended.stdout


def same_blobs(one, other):
    names = sorted(os.listdir(f"{one}/blobs/sha256"))
    assert names == sorted(os.listdir(f"{other}/blobs/sha256")), f"{other} has other blobs"
    for name in names:
        assert filecmp.cmp(f"{one}/blobs/sha256/{name}", f"{other}/blobs/sha256/{name}", False), f"blob {name} differs"


def play(server, folder):
    at = f"docker://{server.address}/acme"
    plain, to, of = ["--dest-tls-verify=false"], ["--dest-tls-verify=false", "--src-tls-verify=false"], ["--src-tls-verify=false"]
    for name, sizes in (("tiny", [1000]), ("many", [3000 + n for n in range(20)]), ("big", [5_000_000, 20_000_000])):
        digest = image(f"{folder}/{name}", sizes, len(sizes))
        skopeo("copy", *plain, f"oci:{folder}/{name}:latest", f"{at}/{name}:v1")
        for reference in (":v1", f"@{digest}"):
            back = f"{folder}/back"
            skopeo("copy", *of, f"{at}/{name}{reference}", f"oci:{back}:latest")
            same_blobs(f"{folder}/{name}", back)
            shutil.rmtree(back)
        assert json.loads(skopeo("inspect", "--tls-verify=false", f"{at}/{name}:v1"))["Digest"] == digest
        # Within one tenant the blobs are mounted and not sent.
        received = server.metric("registryd_received_bytes_total")
        skopeo("copy", *to, f"{at}/{name}:v1", f"{at}/copy-of-{name}:v2")
        assert server.metric("registryd_received_bytes_total") - received < 10_000
        assert json.loads(skopeo("list-tags", "--tls-verify=false", f"{at}/copy-of-{name}"))["Tags"] == ["v2"]
        for reference in (f"{name}:v1", f"copy-of-{name}:v2"):
            skopeo("delete", "--tls-verify=false", f"{at}/{reference}")


def delete_blobs(server, folder):
    """Deletes the blobs. skopeo deletes only manifests; a client of the specification deletes the blobs too."""
    client = server.client()
    for name in ("tiny", "many", "big", "index", "described", "artifact", "waiting"):
        for blob in os.listdir(f"{folder}/{name}/blobs/sha256"):
            for repo in (name, f"copy-of-{name}", "described"):
                client.ask("DELETE", f"/v2/acme/{repo}/blobs/sha256:{blob}")
    assert not server.left(), server.left()


def index_of(top, tops):
    """Writes the OCI layout of an index of images, and returns the digests of the images."""
    os.makedirs(f"{top}/blobs/sha256")
    listed = []
    for number, one in enumerate(tops):
        shutil.copytree(f"{one}/blobs", f"{top}/blobs", dirs_exist_ok=True)
        with open(f"{one}/index.json") as file:
            entry = json.load(file)["manifests"][0]
        del entry["annotations"]
        listed.append({**entry, "platform": {"os": "linux", "architecture": ("amd64", "arm64")[number]}})
    data = json.dumps({"schemaVersion": 2, "mediaType": INDEX, "manifests": listed}).encode()
    finish(top, keep(top, INDEX, data))
    return [entry["digest"] for entry in listed]


def play_index(server, folder):
    """Pushes and pulls an index with all of its images. skopeo deletes the index first, and then the images."""
    at = f"docker://{server.address}/acme/index"
    for one, seed in (("one", 100), ("two", 200)):
        image(f"{folder}/{one}", [1000, 2000], seed)
    images = index_of(f"{folder}/index", [f"{folder}/one", f"{folder}/two"])
    skopeo("copy", "--all", "--dest-tls-verify=false", f"oci:{folder}/index:latest", f"{at}:v1")
    skopeo("copy", "--all", "--src-tls-verify=false", f"{at}:v1", f"oci:{folder}/back:latest")
    same_blobs(f"{folder}/index", f"{folder}/back")
    try:
        skopeo("delete", "--tls-verify=false", f"{at}@{images[0]}")
    except AssertionError as error:
        assert "an index lists the manifest" in str(error), error
    else:
        raise AssertionError("an image was deleted that an index lists")
    skopeo("delete", "--tls-verify=false", f"{at}:v1")
    for digest in images:
        skopeo("delete", "--tls-verify=false", f"{at}@{digest}")


def play_referrer(server, folder):
    """Pushes an artifact that describes an image, and finds it in the list of the image's referrers."""
    at, top, client = f"docker://{server.address}/acme/described", f"{folder}/artifact", server.client()
    digest = image(f"{folder}/described", [1000], 300)
    skopeo("copy", "--dest-tls-verify=false", f"oci:{folder}/described:latest", f"{at}:v1")
    os.makedirs(f"{top}/blobs/sha256")
    parts = {"config": keep(top, "application/vnd.oci.empty.v1+json", b"{}"), "layers": [keep(top, "text/plain", b"a description")]}
    size = len(client.ask("GET", f"/v2/acme/described/manifests/{digest}").body)
    more = {"artifactType": "text/plain", "subject": {"mediaType": MANIFEST, "digest": digest, "size": size}, "annotations": {"by": "skopeo"}}
    manifest = keep(top, MANIFEST, json.dumps({"schemaVersion": 2, "mediaType": MANIFEST, **parts, **more}).encode())
    finish(top, manifest)
    skopeo("copy", "--preserve-digests", "--dest-tls-verify=false", f"oci:{top}:latest", f"{at}:description")
    def listed():
        return json.loads(client.ask("GET", f"/v2/acme/described/referrers/{digest}").body)["manifests"]
    assert listed() == [{**manifest, "artifactType": "text/plain", "annotations": {"by": "skopeo"}}], listed()
    for reference in ("description", "v1"):
        skopeo("delete", "--tls-verify=false", f"{at}:{reference}")
    assert listed() == []


def wait_for_an_upload(server, folder):
    """Pushes an image while the tenant has all uploads that it may leave open. They end after a second. skopeo waits for that."""
    client = server.client()
    opened = [client.ask("POST", "/v2/acme/held/blobs/uploads/")["Location"] for _ in range(LASTING)]
    def end():
        ender = server.client()
        for at in opened:
            ender.ask("DELETE", at)
    image(f"{folder}/waiting", [1000], 400)
    timer = threading.Timer(1, end)
    timer.start()
    skopeo("copy", "--dest-tls-verify=false", f"oci:{folder}/waiting:latest", f"docker://{server.address}/acme/waiting:v1")
    timer.join()
    assert "status=429" in server.logged()
    skopeo("delete", "--tls-verify=false", f"docker://{server.address}/acme/waiting:v1")


def main():
    with tempfile.TemporaryDirectory() as folder, serving("--slots", "128", "--sweep-ms", "20") as server:
        play(server, folder)
        play_index(server, folder)
        play_referrer(server, folder)
        wait_for_an_upload(server, folder)
        delete_blobs(server, folder)
        assert server.end() == 0
    print("images: three, an index and a referrer were pushed, pulled, copied and deleted; the store is empty")


if __name__ == "__main__":
    main()
