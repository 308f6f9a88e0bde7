#!/usr/bin/env python3
"""Changes bits of the log of a registry. A start ends with status 8, and one with --accept-loss serves all but what the damaged frame had, and
names it. While clients are served, the damage is found too: it is logged, counted, and shown. So it is with the contents in files."""
import http.client, json, os, subprocess

from crash.paths import log_of
from playing import play, until
from restarts import by_signal, folder, pulled, push, pushed, tags_of
from server import MANIFEST, REGISTRYD, index_of, push_index, serving, sha256
from statuses import check, ended

# The length of each layer, which the log has, and of a manifest that is pushed with it. The fourth one makes a file of the log long enough to
# be closed.
LAYER, FILLER = 16_000, 400_000
# The length of a layer that has a file of its own.
LONG = 3_000_000


def images(path, count=8):
    """Starts a registry, pushes images with a layer each, and ends it. Returns the layers and the manifests, by their tags."""
    made = {}
    with serving("--data", path) as server:
        for number in range(count):
            layer = os.urandom(LAYER)
            made[f"v{number}"] = layer, pushed(server.client(), tag=f"v{number}", layer=layer)
            push_index(server.client(), "acme/filler", index_of(number, FILLER))
        by_signal(server)
    return made


def flip(file, place):
    """Changes a bit of a file."""
    with open(file, "r+b") as data:
        data.seek(place)
        byte = data.read(1)[0]
        data.seek(place)
        data.write(bytes([byte ^ 1]))


def place_of(path, content):
    """Returns the file of the log that has a content, and the place in it."""
    for file in log_of(path).paths:
        place = file.read_bytes().find(content)
        if place >= 0:
            return file, place
    raise AssertionError("the log does not have the content")


def all_but(client, made, lost):
    """Checks that all images but some are pulled as they were pushed, and these are not there."""
    assert tags_of(client, "acme/one") == sorted(set(made) - set(lost)), tags_of(client, "acme/one")
    for tag, (layer, manifest) in made.items():
        blob = client.ask("GET", f"/v2/acme/one/blobs/{sha256(layer)}")
        if tag in lost:
            assert blob.status == 404 and client.ask("GET", f"/v2/acme/one/manifests/{sha256(manifest)}").status == 404, tag
        else:
            assert pulled(client, "acme/one", tag) == (manifest, MANIFEST) and blob.body == layer, tag


def status_of(client):
    return json.loads(client.ask("GET", "/status").body)


def one_bit_costs_one_image():
    """Also two bits cost two images. What is lost is pushed again, and the next start needs no option."""
    with folder() as path:
        made = images(path)
        for tag in ("v1", "v5"):
            layer, _ = made[tag]
            file, place = place_of(path, layer)
            flip(file, place + LAYER // 2)
        check(ended("--data", path), 8, "is damaged at byte", "--accept-loss")
        lost = {tag: made[tag] for tag in ("v1", "v5")}
        with serving("--data", path, "--accept-loss") as server:
            said = server.logged()
            all_but(server.client(), made, lost)
            for tag, (layer, manifest) in lost.items():
                assert f"lost: acme/one:{tag} ({sha256(manifest)})" in said, said
                assert f"blobd: lost: manifest {sha256(manifest)} of acme/one\n" in said, said
                assert pushed(server.client(), tag=tag, layer=layer) == manifest
            assert " has no whole frame from byte " in said, said
            by_signal(server)
        with serving("--data", path) as server:
            all_but(server.client(), made, {})
            by_signal(server)


def a_file_that_is_missing_costs_its_images():
    """The first layer after it is lost too if its upload was opened in the missing file."""
    with folder() as path:
        made = images(path)
        file, later = log_of(path).paths[1:3]
        data, after = file.read_bytes(), later.read_bytes()
        lost = {tag for tag, (layer, _) in made.items() if layer in data}
        assert lost and len(lost) < len(made), lost
        opened = min((tag for tag, (layer, _) in made.items() if layer in after), default=None)
        file.unlink()
        check(ended("--data", path), 8, f"{file.name} is damaged at byte 0", "missing")
        with serving("--data", path, "--accept-loss") as server:
            client = server.client()
            for tag, (layer, manifest) in made.items():
                wanted = {404} if tag in lost else {200, 404} if tag == opened else {200}
                assert client.ask("GET", f"/v2/acme/one/blobs/{sha256(layer)}").status in wanted, tag
                if tag in lost:
                    assert client.ask("GET", f"/v2/acme/one/manifests/{tag}").status == 404, tag
            assert f"{file.name} is missing" in server.logged()
            by_signal(server)


def an_acceptance_counts_for_one_start():
    """A start that finds no damage uses it up. So does one whose store does not start."""
    with folder() as path:
        made = images(path)
        with serving("--data", path, "--accept-loss") as server:
            assert not os.path.exists(f"{path}/accept-loss")
            by_signal(server)
        assert ended("--data", path, "--accept-loss", programs=(REGISTRYD, "/bin/false"))[0] == 1
        file, place = place_of(path, made["v2"][0])
        flip(file, place + 1000)
        check(ended("--data", path), 8, "is damaged at byte")


def damage_is_found_while_clients_are_served():
    with folder() as path:
        made = images(path)
        with serving("--data", path, "--scrub-mib-s", "100") as server:
            client = server.client()
            assert until(lambda: server.metric("registryd_scrubs_total") >= 1)
            assert server.metric("registryd_log_damaged_files") == 0
            file, place = place_of(path, made["v0"][0])
            assert file != log_of(path).last
            flip(file, place + 1000)
            assert until(lambda: server.metric("registryd_log_damaged_files") == 1)
            found, = status_of(client)["scrub"]["damage"]
            assert found["file"] == file.name and found["byte"] < place and "sum" in found["what"], found
            assert f'the log is damaged: make a backup of what is served file="{file.name}" byte={found["byte"]}' in server.logged()
            assert client.ask("GET", "/healthz").status == 200
            all_but(client, made, {})
            flip(file, place + 1000)
            assert until(lambda: server.metric("registryd_log_damaged_files") == 0)
            assert status_of(client)["scrub"]["damage"] == []
            assert server.logged().count("the log is damaged") == 1
            by_signal(server)
        with serving("--data", path, "--scrub-mib-s", "0") as server:
            assert status_of(server.client())["scrub"] is None
            assert b"registryd_scrubs_total" not in server.client().ask("GET", "/metrics").body
            by_signal(server)


def contents(path, *options):
    """Returns what `registryd contents` prints, by digest, and its status."""
    done = subprocess.run([REGISTRYD, "contents", path, *options], stdout=subprocess.PIPE, stderr=subprocess.PIPE, text=True, timeout=60)
    lines = [line.split() for line in done.stdout.splitlines()]
    return {digest: (file, int(length), repositories) for file, digest, length, repositories in lines}, done.returncode, done.stderr


def digest_of(file):
    """Returns the digest of a file by `sha256sum`."""
    done = subprocess.run(["sha256sum", file], stdout=subprocess.PIPE, text=True, check=True)
    return "sha256:" + done.stdout.split()[0]


def each_file_has_a_content():
    """While the registry runs, and after it ended. A small content has no file, and a deleted one has none after a sweep."""
    with folder() as path, serving("--data", path) as server:
        client, made = server.client(), {}
        for number in range(3):
            layer = os.urandom(LONG + number)
            made[f"v{number}"] = layer, pushed(client, tag=f"v{number}", layer=layer)
        gone, small = os.urandom(LONG), os.urandom(LAYER)
        for data in (gone, small):
            push(client, "acme/two", data)
        push(client, "other/app", made["v0"][0])
        def check_listed(layers):
            listed, status, err = contents(path, "--verify")
            assert status == 0 and set(listed) == {sha256(layer) for layer in layers}, (status, err, listed)
            for layer in layers:
                file, length, repositories = listed[sha256(layer)]
                assert length == len(layer) and digest_of(f"{path}/{file}") == sha256(layer), (file, length)
                assert repositories == ("acme/one,other/app" if layer == made["v0"][0] else "acme/two" if layer == gone else "acme/one")
            assert {file for file, *_ in listed.values()} == files_of(path), files_of(path)
        layers = [layer for layer, _ in made.values()]
        assert until(lambda: len(files_of(path)) == 4), files_of(path)
        check_listed([*layers, gone])
        assert client.ask("DELETE", f"/v2/acme/two/blobs/{sha256(gone)}").status == 202
        assert until(lambda: len(files_of(path)) == 3), files_of(path)
        check_listed(layers)
        by_signal(server)
        check_listed(layers)


def files_of(path):
    """Returns the files of contents in a folder."""
    return {f"contents/{tenant}/{number}" for tenant in os.listdir(f"{path}/contents") for number in os.listdir(f"{path}/contents/{tenant}")}


def a_damaged_content_is_mended_by_a_push():
    """It is found by a read and by the scrub, and costs nothing else. A client that asks first sends it again."""
    with folder() as path, serving("--data", path, "--scrub-mib-s", "1000") as server:
        client, made = server.client(), {}
        for tag in ("v1", "v2"):
            layer = os.urandom(LONG)
            made[tag] = layer, pushed(client, tag=tag, layer=layer)
        layer, _ = made["v1"]
        file = contents(path)[0][sha256(layer)][0]
        at = f"/v2/acme/one/blobs/{sha256(layer)}"
        assert client.ask("GET", at).body == layer
        flip(f"{path}/{file}", LONG - 1)
        try:
            answer = client.ask("GET", at)
            assert answer.status == 500, answer.status
        except http.client.IncompleteRead as cut:
            assert layer.startswith(cut.partial) and len(cut.partial) < LONG
        assert server.metric("registryd_damaged_reads_total") >= 1
        assert until(lambda: server.metric("registryd_damaged_contents") == 1)
        state = status_of(client)["scrub"]["contents"]
        found, = state["damage"]
        assert (found["file"], found["digest"], found["repositories"]) == (file, sha256(layer), ["acme/one"]), found
        assert state["damaged"] == 1 and state["files"] == 2 and state["bytes"] >= 2 * LONG, state
        assert f"a content is damaged: push it again digest=\"{sha256(layer)}\"" in server.logged()
        status, err = contents(path, "--verify")[1:]
        assert status == 1 and f"{path}/{file}: the bytes have another digest" in err, err
        assert client.ask("GET", f"/v2/acme/one/blobs/{sha256(made['v2'][0])}").body == made["v2"][0]
        assert (client.ask("HEAD", at).status, client.ask("GET", "/healthz").status) == (404, 200)
        push(client, "acme/one", layer)
        assert client.ask("HEAD", at).status == 200 and client.ask("GET", at).body == layer
        assert until(lambda: server.metric("registryd_damaged_contents") == 0)
        assert status_of(client)["scrub"]["contents"]["damage"] == []
        all_but(client, made, {})
        by_signal(server)
        assert contents(path, "--verify")[1] == 0


def a_missing_content_ends_a_start():
    with folder() as path:
        with serving("--data", path) as server:
            layer = os.urandom(LONG)
            made = {"v1": (layer, pushed(server.client(), tag="v1", layer=layer)), "v2": (b"small", pushed(server.client(), tag="v2", layer=b"small"))}
            by_signal(server)
        file = contents(path)[0][sha256(layer)][0]
        os.rename(f"{path}/{file}", f"{path}.kept")
        assert contents(path)[1:] == (1, f"registryd: {path}/{file}: the file is missing\nregistryd: 1 of 1 contents are damaged or missing\n")
        check(ended("--data", path), 8, file, sha256(layer), "acme/one", "a content is missing")
        with serving("--data", path, "--accept-loss") as server:
            client = server.client()
            at = f"/v2/acme/one/blobs/{sha256(layer)}"
            assert client.ask("GET", at).status == 500 and pulled(client, "acme/one", "v2") == (made["v2"][1], MANIFEST)
            assert client.ask("HEAD", at).status == 404
            push(client, "acme/one", layer)
            all_but(client, made, {})
            by_signal(server)
        with serving("--data", path) as server:
            all_but(server.client(), made, {})
            by_signal(server)


def main():
    play("damages", [one_bit_costs_one_image, a_file_that_is_missing_costs_its_images, an_acceptance_counts_for_one_start,
                     damage_is_found_while_clients_are_served, each_file_has_a_content, a_damaged_content_is_mended_by_a_push,
                     a_missing_content_ends_a_start])


if __name__ == "__main__":
    main()
