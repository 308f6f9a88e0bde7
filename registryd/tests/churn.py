#!/usr/bin/env python3
"""Clients push, pull, delete, and read deleted blobs at the same time, while the collector sweeps without a pause.
churn.py [SECONDS [CLIENTS]]. Everything that is read is compared, and at the end the store has to be empty."""
import json, random, sys, threading, time

from server import Client, MANIFEST, manifest_of, serving, sha256

OPENED = {"Content-Type": "application/octet-stream"}


class Pusher(threading.Thread):
    """A client with a repository of its own. It runs until the end of its time or a failure."""

    def __init__(self, server, number, end):
        super().__init__()
        self.client, self.address = server.client(), server.address
        self.repo, self.random, self.end = f"acme/c{number}", random.Random(number), end
        self.images, self.up, self.down, self.retries, self.fault = 0, 0, 0, 0, None

    def run(self):
        try:
            while time.time() < self.end:
                self.turn()
        except Exception as fault:
            self.fault = f"{self.repo}: {fault!r}"

    def ask(self, method, path, status, body=None, headers=()):
        path = path if path.startswith("/") else f"/v2/{self.repo}/{path}"
        for _ in range(500):
            answer = self.client.ask(method, path, body, headers)
            if answer.status not in (429, 503, 507):
                break
            self.retries += 1
            time.sleep(0.01)
        assert answer.status == status, f"{method} {path}: {answer.status} {answer.body[:200]}"
        return answer

    def push(self, data):
        half = len(data) // 2
        at = self.ask("POST", "blobs/uploads/", 202)["Location"]
        self.ask("PATCH", at, 202, data[:half], {**OPENED, "Content-Range": f"0-{half - 1}"})
        self.ask("PUT", f"{at}?digest={sha256(data)}", 201, data[half:], {**OPENED, "Content-Range": f"{half}-{len(data) - 1}"})
        self.up += len(data)

    def turn(self):
        layers = [self.random.randbytes(self.random.choice([1000, 300_000, 3_000_000])) for _ in range(3)]
        big, config = self.random.randbytes(12_000_000), json.dumps({"n": self.random.random()}).encode()
        blobs = [config, *layers, big]
        for data in blobs:
            self.push(data)
        manifest = manifest_of(config, [*layers, big])
        self.ask("PUT", "manifests/latest", 201, manifest, {"Content-Type": MANIFEST})
        assert self.ask("GET", "manifests/latest", 200).body == manifest
        for data in blobs:
            assert self.ask("GET", f"blobs/{sha256(data)}", 200).body == data, "the bytes differ"
            self.down += len(data)
        self.ask("DELETE", f"blobs/{sha256(big)}", 403)
        # A read in progress continues after the delete of its blob and during sweeps.
        reader = Client(self.address).connection
        reader.request("GET", f"/v2/{self.repo}/blobs/{sha256(big)}")
        response = reader.getresponse()
        read = response.read(1000)
        self.ask("DELETE", f"manifests/{sha256(manifest)}", 202)
        for data in blobs:
            self.ask("DELETE", f"blobs/{sha256(data)}", 202)
            self.ask("GET", f"blobs/{sha256(data)}", 404)
        time.sleep(0.02)
        assert read + response.read() == big, "a read during a delete returned other bytes"
        self.down += len(big)
        reader.close()
        self.images += 1


def main():
    seconds = float(sys.argv[1]) if len(sys.argv) > 1 else 20
    count = int(sys.argv[2]) if len(sys.argv) > 2 else 8
    with serving("--slots", "64", "--sweep-ms", "0") as server:
        end = time.time() + seconds
        pushers = [Pusher(server, number, end) for number in range(count)]
        for pusher in pushers:
            pusher.start()
        for pusher in pushers:
            pusher.join()
        total = lambda name: sum(getattr(pusher, name) for pusher in pushers)
        faults = [pusher.fault for pusher in pushers if pusher.fault]
        rest, sweeps = server.left(), server.metric("registryd_sweeps_total")
        ended = server.end()
    print(f"churn: {count} clients, {total('images')} images, {total('up') >> 20} MiB up, {total('down') >> 20} MiB down, "
          f"{total('images')} reads over a delete, {sweeps:.0f} sweeps, {total('retries')} retries, "
          f"left: {rest or 'nothing'}, faults: {faults[:3] or 'none'}")
    sys.exit(bool(faults or rest or ended or total("images") == 0))


if __name__ == "__main__":
    main()
