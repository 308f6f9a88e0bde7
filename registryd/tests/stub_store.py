#!/usr/bin/env python3
"""A stub of blobd with faults for tests. It speaks the protocol of docs/PROTOCOL.md, stores manifests and blobs without
hashing them, and writes a line `stub: COMMAND REPOSITORY` to standard error for each call. STUB_RULES is a JSON object with
the keys `COMMAND REPOSITORY` or `COMMAND`. A rule may have the seconds before a call is made (`slow`) or after it (`late`), a
status that is returned without making the call (`status`), a first number that replaces the one of the reply (`first`), the
number of the command's first calls that it is for (`times`), and the number of its first calls that it is not for (`after`). The rule `greeting` has the seconds before the stub greets."""
import collections, hashlib, json, os, struct, sys, threading, time

GREETING = b"blobd\0\1\0"
HEAD = struct.Struct("<BBHHHIIQQ")
START, STATUS, APPEND, CLOSE, ABANDON, MOUNT, DELETE, PUT_MANIFEST, GET_MANIFEST, DELETE_MANIFEST = range(1, 11)
LEASE, READ, GIVE_BACK, SWEEP = range(11, 15)
STAT, STAT_MANIFEST, FREE_SLOTS, USAGE, FETCH = range(17, 22)
SLOT_USE = 23
# The quota of each tenant, in bytes.
QUOTA = 1 << 50
# The share of a tenant without one, in blobs.
UNLIMITED = (1 << 32) - 1
# The maximum length of a piece that a fetch returns, in bytes.
MAX_FETCHED = 1 << 20
UPLOAD_UNKNOWN, RANGE_INVALID, BLOB_UNKNOWN, MANIFEST_UNKNOWN, LIMIT_REACHED, NO_LEASE, NO_COMMAND = 4, 6, 7, 9, 15, 254, 255


def piece(content, span):
    """Returns the bytes in a range, or all of them without one."""
    return content[span[0]:span[1] + 1] if span else content


def reply(status=0, first=0, second=0, digest="", body=b""):
    return status, first, second, digest, body


def share_of(limits):
    """Returns the share in the limits of a tenant: `QUOTA`, `QUOTA,BLOBS`, or more numbers after these."""
    return int((limits.split(",") + [UNLIMITED])[1])


class Stub:
    def __init__(self, tenants):
        self.rules, self.asked = json.loads(os.environ.get("STUB_RULES", "{}")), collections.Counter()
        self.shares = {name: share_of(limits) for name, limits in (word.split("=") for word in tenants)}
        self.lock, self.count = threading.Lock(), 0
        self.manifests, self.uploads, self.blobs, self.leases = {}, {}, {}, {}

    def answer(self, command, repo, digest, number, span, body):
        """Returns the reply to a call. `span` has the first and the last offset of a range, if there is one."""
        if command in (START, MOUNT):
            self.count += 1
            self.uploads[self.count] = b""
            return reply(first=self.count)
        if command in (STATUS, APPEND, CLOSE, ABANDON):
            return self.upload(command, repo, digest, number, span, body)
        if command in (PUT_MANIFEST, GET_MANIFEST, STAT_MANIFEST, DELETE_MANIFEST):
            return self.manifest(command, repo, digest, body)
        if command in (STAT, LEASE, FETCH, DELETE):
            return self.blob(command, repo, digest, span)
        if command in (READ, GIVE_BACK):
            kept = self.leases.get(number) if command == READ else self.leases.pop(number, None)
            if kept is None:
                return reply(NO_LEASE)
            return reply(body=piece(kept, span) if command == READ else b"")
        if command == USAGE:
            return reply(second=QUOTA)
        if command == SLOT_USE:
            return reply(first=len(self.held(repo)), second=self.share(repo))
        return reply(0 if command in (SWEEP, FREE_SLOTS) else NO_COMMAND)

    def share(self, repo):
        return self.shares[repo.split("/")[0]]

    def held(self, repo):
        """Returns the digests of a repository's tenant."""
        return {digest for other, digest in self.blobs if other.split("/")[0] == repo.split("/")[0]}

    def upload(self, command, repo, digest, number, span, body):
        if number not in self.uploads:
            return reply(UPLOAD_UNKNOWN)
        received = len(self.uploads[number])
        if span and span[0] != received:
            return reply(RANGE_INVALID, received)
        if command == CLOSE and len(self.held(repo) | {digest}) > self.share(repo):
            return reply(LIMIT_REACHED)
        self.uploads[number] += body
        if command == CLOSE:
            self.blobs[repo, digest] = self.uploads[number]
        if command in (CLOSE, ABANDON):
            del self.uploads[number]
        return reply(first=received + len(body))

    def manifest(self, command, repo, digest, body):
        if command == PUT_MANIFEST:
            digest = "sha256:" + hashlib.sha256(body).hexdigest()
            self.manifests[repo, digest] = body
            return reply(digest=digest)
        if (repo, digest) not in self.manifests:
            return reply(MANIFEST_UNKNOWN)
        kept = self.manifests[repo, digest]
        if command == DELETE_MANIFEST:
            del self.manifests[repo, digest]
        return reply(first=len(kept)) if command == STAT_MANIFEST else reply(body=kept if command == GET_MANIFEST else b"")

    def blob(self, command, repo, digest, span):
        if (repo, digest) not in self.blobs:
            return reply(BLOB_UNKNOWN)
        kept = self.blobs[repo, digest]
        if command == DELETE:
            del self.blobs[repo, digest]
            return reply()
        fetched = piece(kept, span)
        if command == FETCH and len(fetched) <= MAX_FETCHED:
            return reply(first=len(kept), body=fetched)
        if command == STAT:
            return reply(first=len(kept))
        self.count += 1
        self.leases[self.count] = kept
        return reply(first=len(kept), second=self.count)

    def rule(self, command, repo):
        """Returns the rule for a call."""
        with self.lock:
            self.asked[command] += 1
            rule = {**self.rules.get(str(command), {}), **self.rules.get(f"{command} {repo}", {})}
            return rule if rule.get("after", 0) < self.asked[command] <= rule.get("times", self.asked[command]) else {}

    def serve(self, requests, replies):
        """Serves one connection until it is closed."""
        with open(requests, "rb") as source, open(replies, "wb", buffering=0) as sink:
            if source.read(len(GREETING)) != GREETING:
                return
            time.sleep(self.rules.get("greeting", {}).get("slow", 0))
            sink.write(GREETING)
            while True:
                head = source.read(HEAD.size)
                if len(head) < HEAD.size:
                    return
                command, flags, repo, digest, other, number, body, start, last = HEAD.unpack(head)
                repo, digest, other, body = (source.read(count) for count in (repo, digest, other, body))
                repo, digest, span = repo.decode(), digest.decode(), (start, last) if flags & 1 else None
                sys.stderr.write(f"stub: {command} {repo}\n")
                rule = self.rule(command, repo)
                time.sleep(rule.get("slow", 0))
                status, first, second, text, content = rule.get("status", 0), 0, 0, "", b""
                if status == 0:
                    with self.lock:
                        status, first, second, text, content = self.answer(command, repo, digest, number, span, body)
                    first = rule.get("first", first) if status == 0 else first
                time.sleep(rule.get("late", 0))
                head = struct.pack("<IIQQQ", status, len(text), first, second, len(content))
                sink.write(head + text.encode() + content)


def main():
    end = sys.argv.index("--")
    paths = sys.argv[end + 1:]
    stub = Stub(word for word in sys.argv[1:end] if "=" in word)
    lines = [threading.Thread(target=stub.serve, args=pair) for pair in zip(paths[::2], paths[1::2])]
    for line in lines:
        line.start()
    for line in lines:
        line.join()


if __name__ == "__main__":
    main()
