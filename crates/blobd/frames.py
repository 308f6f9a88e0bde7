#!/usr/bin/env python3
"""Writes the stored run of blobd by the rules of docs/PROTOCOL.md: the frames of standard input (stdin) and those of standard
output (stdout). With --check it writes nothing, and compares the files with these frames."""
import hashlib
import pathlib
import struct
import sys

HERE = pathlib.Path(__file__).parent
GREETING = b"blobd\0\1\0"

# The numbers of the commands.
START, STATUS, APPEND, CLOSE, ABANDON, MOUNT, DELETE, PUT_MANIFEST, GET_MANIFEST, DELETE_MANIFEST = range(1, 11)
LEASE, READ, GIVE_BACK, SWEEP = range(11, 15)
STAT, STAT_MANIFEST, FREE_SLOTS, USAGE, FETCH, REMOVE_REPO = range(17, 23)
SLOT_USE, REPO_COUNT, SYNC_COUNT, LOCATE = range(23, 27)

# The share of a tenant without one.
UNLIMITED = 2**32 - 1

# The numbers of the refusals, and two more status codes.
NAME_INVALID, DIGEST_INVALID, NAME_UNKNOWN, UPLOAD_UNKNOWN, SIZE_INVALID, RANGE_INVALID, BLOB_UNKNOWN = range(1, 8)
MANIFEST_INVALID, MANIFEST_UNKNOWN, MANIFEST_BLOB_UNKNOWN, QUOTA, REFERENCED = range(8, 13)
STORE_FULL, TOO_MANY_READERS, LIMIT_REACHED, WEIGHT_SPENT, MEMORY, BUSY, REPO_IN_USE = range(13, 20)
UNREADABLE, NO_LEASE, NO_COMMAND = 253, 254, 255


def request(command, repo="", digest="", source="", number=0, span=None, body=b""):
    texts = [text.encode() for text in (repo, digest, source)]
    start, end = span or (0, 0)
    head = struct.pack(
        "<BBHHHIIQQ", command, span is not None, *map(len, texts), number, len(body), start, end
    )
    return head + b"".join(texts) + body


def reply(status=0, first=0, second=0, digest="", body=b""):
    text = digest.encode()
    return struct.pack("<IIQQQ", status, len(text), first, second, len(body)) + text + body


def sha256(data):
    return "sha256:" + hashlib.sha256(data).hexdigest()


ONE, TWO, OTHER = "acme/one", "acme/two", "other/one"
ABC = sha256(b"abc")
ABC_512 = "sha512:" + hashlib.sha512(b"abc").hexdigest()
NOTHING = sha256(b"")
CONFIG = b"{}"
MANIFEST = (
    '{"schemaVersion":2,"config":{"mediaType":"application/vnd.oci.image.config.v1+json","digest":"%s","size":2},'
    '"layers":[{"mediaType":"application/vnd.oci.image.layer.v1.tar","digest":"%s","size":3}]}'
    % (sha256(CONFIG), ABC)
).encode()

# The file `args` gives 16 slots, a quota of 100 bytes to tenant `acme`, and one of 4 bytes to `other`.
CALLS = [
    # an upload in two chunks, with one chunk at a wrong place
    (request(START, ONE), reply(first=1)),
    (request(APPEND, ONE, number=1, span=(0, 1), body=b"ab"), reply(first=2)),
    (request(APPEND, ONE, number=1, span=(1, 2), body=b"bc"), reply(RANGE_INVALID, first=2)),
    (request(APPEND, ONE, number=1, span=(2, 3), body=b"c"), reply(SIZE_INVALID)),
    (request(APPEND, ONE, number=1, span=(2, 2), body=b"c"), reply(first=3)),
    (request(STATUS, ONE, number=1), reply(first=3)),
    (request(CLOSE, ONE, NOTHING, number=1), reply(DIGEST_INVALID)),
    (request(CLOSE, ONE, ABC, number=1), reply(first=3)),
    (request(STATUS, ONE, number=1), reply(UPLOAD_UNKNOWN)),
    # invalid names and digests
    (request(START, "Acme/one"), reply(NAME_INVALID)),
    (request(START, "nobody/one"), reply(NAME_UNKNOWN)),
    (request(LEASE, ONE, "sha256:abc"), reply(DIGEST_INVALID)),
    # reads of a lease by ranges
    (request(LEASE, ONE, NOTHING), reply(BLOB_UNKNOWN)),
    (request(LEASE, ONE, ABC), reply(first=3, second=1)),
    (request(LEASE, ONE, ABC), reply(first=3, second=2)),
    (request(READ, digest=ABC, number=1), reply(body=b"abc")),
    (request(READ, digest=ABC, number=2, span=(1, 1)), reply(body=b"b")),
    (request(READ, digest=ABC, number=2, span=(1, 99)), reply(body=b"bc")),
    (request(READ, digest=ABC, number=2, span=(2, 1)), reply(SIZE_INVALID)),
    (request(READ, digest=NOTHING, number=1), reply(NO_LEASE)),
    (request(READ, digest=ABC, number=3), reply(NO_LEASE)),
    # the place of bytes, which are in memory
    (request(LOCATE, digest=ABC, number=1), reply()),
    (request(LOCATE, digest=ABC, number=2, span=(1, 99)), reply()),
    (request(LOCATE, digest=ABC, number=2, span=(2, 1)), reply(SIZE_INVALID)),
    (request(LOCATE, digest="sha256:abc", number=2, span=(2, 1)), reply(DIGEST_INVALID)),
    (request(LOCATE, digest=NOTHING, number=1), reply(NO_LEASE)),
    (request(LOCATE, digest=ABC, number=3), reply(NO_LEASE)),
    (request(GIVE_BACK, number=2), reply()),
    (request(GIVE_BACK, number=2), reply(NO_LEASE)),
    # fetches, which keep no lease
    (request(FETCH, ONE, ABC), reply(first=3, body=b"abc")),
    (request(FETCH, ONE, ABC, span=(1, 1)), reply(first=3, body=b"b")),
    (request(FETCH, ONE, ABC, span=(1, 99)), reply(first=3, body=b"bc")),
    (request(FETCH, ONE, ABC, span=(3, 99)), reply(first=3)),
    (request(FETCH, ONE, ABC, span=(2, 1)), reply(SIZE_INVALID)),
    (request(FETCH, ONE, ABC, span=(0, 1 << 63)), reply(SIZE_INVALID)),
    (request(FETCH, ONE, "sha256:abc", span=(2, 1)), reply(DIGEST_INVALID)),
    (request(FETCH, "Acme/one", "sha256:abc"), reply(NAME_INVALID)),
    (request(FETCH, ONE, NOTHING), reply(BLOB_UNKNOWN)),
    # a manifest prevents the deletion of its blobs
    (request(PUT_MANIFEST, ONE, body=b"no manifest"), reply(MANIFEST_INVALID)),
    (request(PUT_MANIFEST, ONE, body=MANIFEST), reply(MANIFEST_BLOB_UNKNOWN, digest=sha256(CONFIG))),
    (request(START, ONE), reply(first=2)),
    (request(CLOSE, ONE, sha256(CONFIG), number=2, body=CONFIG), reply(first=2)),
    (request(PUT_MANIFEST, ONE, body=MANIFEST), reply(digest=sha256(MANIFEST))),
    (request(GET_MANIFEST, ONE, sha256(MANIFEST)), reply(body=MANIFEST)),
    (request(GET_MANIFEST, TWO, sha256(MANIFEST)), reply(MANIFEST_UNKNOWN)),
    (request(DELETE, ONE, ABC), reply(REFERENCED, digest=sha256(MANIFEST))),
    # queries
    (request(STAT, ONE, ABC), reply(first=3)),
    (request(STAT, TWO, ABC), reply(BLOB_UNKNOWN)),
    (request(STAT_MANIFEST, ONE, sha256(MANIFEST)), reply(first=len(MANIFEST))),
    (request(STAT_MANIFEST, ONE, ABC), reply(MANIFEST_UNKNOWN)),
    (request(FREE_SLOTS), reply(first=14)),
    (request(USAGE, ONE), reply(first=5, second=100)),
    (request(USAGE, "nobody"), reply(NAME_UNKNOWN)),
    (request(SLOT_USE, ONE), reply(first=2, second=UNLIMITED)),
    (request(SLOT_USE, "nobody"), reply(NAME_UNKNOWN)),
    (request(REPO_COUNT, ONE), reply(first=1)),
    (request(REPO_COUNT, "nobody"), reply(NAME_UNKNOWN)),
    (request(SYNC_COUNT), reply()),
    (request(DELETE_MANIFEST, ONE, sha256(MANIFEST)), reply()),
    # mounts, which succeed only within a tenant
    (request(MOUNT, TWO, ABC, ONE), reply()),
    (request(MOUNT, TWO, NOTHING), reply(first=3)),
    (request(ABANDON, TWO, number=3), reply()),
    (request(MOUNT, OTHER, ABC, ONE), reply(first=1)),
    (request(APPEND, OTHER, number=1, body=b"12345"), reply(QUOTA, first=0, second=4)),
    # sweeps, which free no leased slot
    (request(DELETE, ONE, ABC), reply()),
    (request(DELETE, TWO, ABC), reply()),
    (request(SWEEP), reply(first=0, second=1)),
    (request(READ, digest=ABC, number=1), reply(body=b"abc")),
    (request(GIVE_BACK, number=1), reply()),
    (request(SWEEP), reply(first=1, second=0)),
    # a repository is removed when it has no link, no manifest and no session
    (request(REMOVE_REPO, ONE), reply(REPO_IN_USE)),
    (request(REMOVE_REPO, OTHER), reply(REPO_IN_USE)),
    (request(REMOVE_REPO, TWO), reply()),
    (request(REMOVE_REPO, TWO), reply(NAME_UNKNOWN)),
    # a blob by its SHA-512 digest, whose lease remains at the end
    (request(START, TWO), reply(first=4)),
    (request(CLOSE, TWO, ABC_512, number=4, span=(0, 2), body=b"abc"), reply(first=3)),
    (request(LEASE, TWO, ABC_512), reply(first=3, second=3)),
    # numbers of no command
    (request(0), reply(NO_COMMAND)),
    (request(15), reply(NO_COMMAND)),
    (request(99, body=b"any"), reply(NO_COMMAND)),
]


def main():
    files = {
        "stdin": GREETING + b"".join(call[0] for call in CALLS),
        "stdout": GREETING + b"".join(call[1] for call in CALLS),
    }
    if sys.argv[1:] == ["--check"]:
        others = [name for name, data in files.items() if (HERE / name).read_bytes() != data]
        for name in others:
            print(f"frames.py: crates/blobd/{name} differs from what frames.py writes", file=sys.stderr)
        return 1 if others else 0
    for name, data in files.items():
        (HERE / name).write_bytes(data)
    return 0


if __name__ == "__main__":
    sys.exit(main())
