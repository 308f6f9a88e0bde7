"""What clients know of a registry that may crash: which values each tag, manifest and blob may have, and how long each upload may be."""
import collections
import math
import threading
import time

# The number of deleted things of each kind that are still looked for.
MOST_GONE = 30

# The subject that some manifests have. No client pushes it.
SUBJECT = "sha256:" + "0" * 64

# Stands for any value but none, if the client cannot know which.
SOME = object()


class Fault(Exception):
    """The registry did not do what it must."""


class Write:
    """A request that gives something a value, or removes it (`None`). `only` is the one value that it removes, if there is one."""

    def __init__(self, value, only=None):
        self.value, self.only, self.is_met = value, only, only is None
        self.begun, self.ended, self.is_sure = time.monotonic(), math.inf, False

    def overwrites(self, other):
        """Returns whether this one was answered, and began after the other one was answered."""
        return self.is_sure and self.begun > other.ended and self.only in (None, other.value)


class Register:
    """A tag, a manifest or a blob, which several clients may write at the same time."""

    def __init__(self, value=None):
        self.is_now(value)

    def is_now(self, value):
        """Notes that this is the value, and that no request is in flight."""
        first = Write(value)
        first.begun, first.ended, first.is_sure = -math.inf, -math.inf, True
        self.writes = [first]

    def candidates(self):
        """Returns the writes that may be the last one."""
        return [one for one in self.writes if not any(other.overwrites(one) for other in self.writes)]

    def possible(self):
        """Returns the values that may be there. A write that removes one value counts only if that one may have been there."""
        for one in self.writes:
            one.is_met = one.is_met or any(one.only == other.value and other.begun < one.ended for other in self.writes)
        return {one.value for one in self.candidates() if one.is_met}

    def fits(self, value):
        """Returns whether a value may be there."""
        possible = self.possible()
        return value in possible or value is not None and SOME in possible

    def prunes(self):
        """Forgets the writes that cannot be the last one."""
        self.possible()
        self.writes = self.candidates()


class Change:
    """What one request changes. If it is never answered, each part of it may have happened, or not."""

    def __init__(self, facts):
        self.facts, self.parts, self.others = facts, [], []

    def sets(self, key, value, only=None):
        """The request gives something this value."""
        self.parts.append((key, Write(value, only)))

    def may_set(self, key, value):
        """A request that is interrupted may leave this value."""
        self.others.append((key, Write(value)))

    def begins(self):
        with self.facts.lock:
            for key, write in self.parts + self.others:
                self.facts.registers[key].writes.append(write)
        return self

    def answered(self):
        """The request succeeded."""
        now = time.monotonic()
        with self.facts.lock:
            for key, write in self.others:
                self.facts.registers[key].writes.remove(write)
            for key, write in self.parts:
                write.ended, write.is_sure = now, True
                self.facts.registers[key].prunes()

    def refused(self):
        """The request changed nothing."""
        with self.facts.lock:
            for key, write in self.parts + self.others:
                self.facts.registers[key].writes.remove(write)


class Upload:
    """An open upload of a client: what it has sent, and the length that the registry has promised."""

    def __init__(self, repository, location):
        self.repository, self.location = repository, location
        self.sent = b""  # with a chunk in flight
        self.length = 0  # by the last answer
        self.promised = 0
        self.chunks = []  # the times of answers that are not promised to be durable, and the lengths in them
        self.ending = None  # the digest under which it is being closed, or "abandoned"

    def promises(self, durable):
        """Notes that everything is durable that was answered before a time."""
        for answered, length in self.chunks:
            if answered < durable:
                self.promised = max(self.promised, length)


class Facts:
    """What all clients of a registry know."""

    def __init__(self, tenants):
        self.tenants = tenants  # those of which all blobs are known
        self.lock = threading.RLock()
        self.registers = collections.defaultdict(Register)
        self.uploads = []
        self.ended = []  # the locations of uploads that have ended
        self.contents = {}  # the bytes of each digest
        self.digests = {}  # the digests that a manifest refers to
        self.durable = 0.0  # everything is durable that was answered before

    def change(self):
        return Change(self)

    def keeps(self, digest, data):
        with self.lock:
            self.contents[digest] = data

    def value(self, *key):
        """Returns a value that no request in flight can change."""
        with self.lock:
            register = self.registers.get(key)
            values = register.possible() if register else {None}
            return next(iter(values)) if len(values) == 1 else None

    def keys(self, kind, repository):
        """Returns the names of all tags, manifests or blobs of a repository."""
        with self.lock:
            return sorted(key[2] for key in self.registers if key[:2] == (kind, repository))

    def present(self, kind, repository):
        """Returns those that are there for sure."""
        return [name for name in self.keys(kind, repository) if self.value(kind, repository, name) is not None]

    def referrers(self, repository):
        """Returns the manifests that are there for sure and have the subject."""
        return {digest for digest in self.present("manifest", repository) if SUBJECT.encode() in self.contents.get(digest, b"")}

    def repositories(self):
        with self.lock:
            return sorted({key[1] for key in self.registers})

    def use(self, tenant):
        """Returns the number of bytes of a tenant's blobs and uploads. A blob counts once."""
        blobs = {key[2] for key in self.registers if key[0] == "blob" and key[1].startswith(f"{tenant}/") and self.value(*key)}
        uploads = [upload for upload in self.uploads if upload.repository.startswith(f"{tenant}/")]
        return sum(len(self.contents[digest]) for digest in blobs) + sum(upload.length for upload in uploads)

    def proves(self, begun):
        """Notes that a change is durable which was requested at this time. The store keeps a first part of one history, so everything
        that was answered before is durable too."""
        with self.lock:
            self.durable = max(self.durable, begun)

    def settles(self):
        """Notes after a crash what is promised of each upload."""
        with self.lock:
            for upload in self.uploads:
                upload.promises(self.durable)
            self.durable = 0.0
            self.forgets()

    def forgets(self):
        """Forgets most of what was deleted."""
        for kind in ("tag", "manifest", "blob"):
            gone = [key for key, register in self.registers.items() if key[0] == kind and register.possible() == {None}]
            for key in gone[:-MOST_GONE]:
                del self.registers[key]
        del self.ended[:-MOST_GONE]
