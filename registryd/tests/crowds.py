#!/usr/bin/env python3
"""Tests a tenant with many readers at once: pulls of one image, pushes during reads, and readers that take almost nothing."""
import contextlib, random, select, selectors, socket, threading, time

from hardships import MIB, PATCH, head_of
from playing import Asking, play
from server import MANIFEST, manifest_of, serving, sha256

LAYERS = [random.Random(seed).randbytes(2 * MIB) for seed in range(3)]
CONFIG = b"{}"


def pushed(client, tenant="acme", layers=LAYERS):
    """Pushes an image."""
    for data in (CONFIG, *layers):
        assert client.ask("POST", f"/v2/{tenant}/one/blobs/uploads/?digest={sha256(data)}", data, PATCH).status == 201
    manifest = manifest_of(CONFIG, layers)
    assert client.ask("PUT", f"/v2/{tenant}/one/manifests/v1", manifest, {"Content-Type": MANIFEST}).status == 201


class Pull:
    """A client that asks for parts of a repository one after the other, without blocking."""

    def __init__(self, server, paths):
        self.line, self.paths, self.left, self.head, self.statuses = server.socket(), list(paths), 0, b"", []
        self.ask()

    def ask(self):
        """Asks for the next part. Returns whether there is one."""
        if not self.paths:
            self.line.close()
            return False
        self.line.sendall(head_of("GET", self.paths.pop(0)))
        self.head = b""
        return True

    def go_on(self):
        """Takes what is there. Returns whether more will come."""
        data = self.line.recv(MIB)
        if not data:
            self.statuses.append("closed")
            self.line.close()
            return False
        if not self.left:
            self.head += data
            end = self.head.find(b"\r\n\r\n") + 4
            if end < 4:
                return True
            self.statuses.append(int(self.head.split()[1]))
            length = [line for line in self.head[:end].lower().split(b"\r\n") if line.startswith(b"content-length:")]
            self.left, data = int(length[0].split(b":")[1]), self.head[end:]
        self.left -= len(data)
        return self.left > 0 or self.ask()


def finished(pulls, seconds=50):
    """Lets pulls go on until all have ended, and returns their statuses."""
    waits = selectors.DefaultSelector()
    for pull in pulls:
        waits.register(pull.line, selectors.EVENT_READ, pull)
    end = time.time() + seconds
    while waits.get_map():
        assert time.time() < end, f"{len(waits.get_map())} of {len(pulls)} pulls have not ended"
        for key, _ in waits.select(1):
            if not key.data.go_on():
                waits.unregister(key.fileobj)
    return [status for pull in pulls for status in pull.statuses]


def paths_of(tenant="acme"):
    """Returns the paths of the manifest and the layers of `LAYERS`."""
    return [f"{tenant}/one/manifests/v1", *(f"{tenant}/one/blobs/{sha256(data)}" for data in LAYERS)]


def slow_reader(server, path):
    """Asks for a part on a connection with a small buffer, and takes nothing of it yet."""
    host, port = server.address.rsplit(":", 1)
    line = socket.socket()
    line.setsockopt(socket.SOL_SOCKET, socket.SO_RCVBUF, 4096)
    line.settimeout(60)
    line.connect((host, int(port)))
    line.sendall(head_of("GET", path))
    return line


@contextlib.contextmanager
def taking(lines, count, rest):
    """Takes at most `count` bytes on each connection after each rest, in the background."""
    is_over, ended = threading.Event(), set()
    def take():
        while not is_over.wait(rest):
            for line in lines:
                try:
                    if line not in ended and not line.recv(count):
                        ended.add(line)
                except ConnectionResetError:
                    ended.add(line)
    thread = threading.Thread(target=take)
    thread.start()
    try:
        yield ended
    finally:
        is_over.set()
        thread.join()
        for line in lines:
            line.close()


def all_of_a_crowd_pull_an_image():
    with serving() as server:
        pushed(server.client())
        paths = paths_of()
        statuses = finished([Pull(server, paths) for _ in range(300)])
        assert statuses == [200] * (300 * len(paths)), {status: statuses.count(status) for status in statuses}


def pushes_succeed_while_many_read():
    with serving() as server:
        large = random.Random(9).randbytes(8 * MIB)
        pushed(server.client(), layers=[large])
        readers = [Pull(server, ["acme/one/manifests/v1", f"acme/one/blobs/{sha256(large)}"] * 3) for _ in range(64)]
        answers = []
        def push(number):
            client = server.client()
            for turn in range(3):
                data = random.Random(f"{number} {turn}").randbytes(5 * MIB)
                answers.append(client.ask("POST", f"/v2/acme/two/blobs/uploads/?digest={sha256(data)}", data, PATCH).status)
        threads = [threading.Thread(target=push, args=[number]) for number in range(4)]
        for thread in threads:
            thread.start()
        statuses = finished(readers)
        for thread in threads:
            thread.join()
        assert set(statuses) == {200} and answers == [201] * 12, (set(statuses), answers)


def slow_readers_leave_memory_for_a_pull():
    with serving() as server:
        large = random.Random(9).randbytes(16 * MIB)
        pushed(server.client(), layers=[*LAYERS, large])
        slow = [slow_reader(server, f"acme/one/blobs/{sha256(large)}") for _ in range(200)]
        with taking(slow, 256, 1):
            for line in slow:
                assert line.recv(12) == b"HTTP/1.1 200", "a slow reader has no response"
            statuses = finished([Pull(server, paths_of())])
            assert statuses == [200] * 4, statuses
        assert "disconnected a slow client" not in server.logged(), "a reader is cut off although there is memory"


def readers_of_all_memory(server, path):
    """Begins reads by slow readers until one of them waits for memory."""
    readers = []
    while len(readers) < 100:
        readers.append(slow_reader(server, path))
        if not select.select(readers[-1:], [], [], 2)[0]:
            return readers
    raise AssertionError("no reader waits for memory")


def slow_readers_that_hold_all_memory_are_cut_off():
    """A reader that takes more than the slow ones is not cut off, and another tenant is not affected."""
    with serving("--memory-in-flight", str(16 * MIB)) as server:
        large = random.Random(9).randbytes(64 * MIB)
        pushed(server.client(), layers=[*LAYERS, large])
        pushed(server.client(), "other")
        path = f"acme/one/blobs/{sha256(large)}"
        steady = server.socket()
        steady.sendall(head_of("GET", path))
        with taking([steady], MIB // 2, 0.1) as ended, taking(readers_of_all_memory(server, path), 256, 1):
            statuses = finished([Pull(server, paths_of("other"))])
            assert statuses == [200] * 4, statuses
            statuses = finished([Pull(server, paths_of()) for _ in range(4)])
            assert statuses == [200] * 16, statuses
            assert not ended, "a steady reader is cut off"
        assert "disconnected a slow client" in server.logged(), "no slow reader is cut off"


def an_upload_waits_for_the_memory_of_another():
    with serving("--memory-in-flight", str(8 * MIB)) as server:
        data = random.Random(4).randbytes(6 * MIB)
        path = f"acme/one/blobs/uploads/?digest={sha256(data)}"
        first = server.socket()
        first.sendall(head_of("POST", path, Content_Length=len(data)) + data[:MIB])
        time.sleep(0.3)
        second = Asking(server, "POST", f"/v2/{path}", data, PATCH)
        for start in range(MIB, 6 * MIB, MIB):
            time.sleep(0.3)
            assert second.is_alive(), "it does not wait"
            first.sendall(data[start:start + MIB])
        assert first.recv(1000).startswith(b"HTTP/1.1 201") and second.answered().status == 201


def main():
    play("crowds", [
        all_of_a_crowd_pull_an_image, pushes_succeed_while_many_read, slow_readers_leave_memory_for_a_pull,
        slow_readers_that_hold_all_memory_are_cut_off, an_upload_waits_for_the_memory_of_another])


if __name__ == "__main__":
    main()
