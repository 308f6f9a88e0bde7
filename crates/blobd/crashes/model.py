"""What the clients of crash_tests do, and what they must find after a crash. Each client has a tenant of its own, so that what it finds
depends on nobody else. The rules are those of docs/SEMANTICS.md."""
import collections
import hashlib
import math
import re
import time

from data_folder import LONGEST, Ended
from frames import ABANDON, APPEND, BLOB_UNKNOWN, CLOSE, DELETE, DELETE_MANIFEST, DIGEST_INVALID, FETCH, GET_MANIFEST, GIVE_BACK, LEASE
from frames import MANIFEST_UNKNOWN, MEMORY, MOUNT, NAME_UNKNOWN, PUT_MANIFEST, READ, REFERENCED, REMOVE_REPO, REPO_COUNT, REPO_IN_USE, SLOT_USE
from frames import START, STATUS, SWEEP, UNLIMITED, UNREADABLE, UPLOAD_UNKNOWN, USAGE, reply, request, sha256

MIB = 1 << 20
QUOTA = 1 << 40

# The repositories of a tenant. A client seldom uses RARE, and soon deletes what is there, so that it can often be removed.
REPOSITORIES = ("one", "two", "rare")
RARE = "/rare"

# The number of links, of manifests and of sessions that a client keeps at most, and of removed ones that it still looks for.
MOST_LINKS, MOST_MANIFESTS, MOST_SESSIONS, MOST_GONE = 30, 6, 8, 20

# The number of contents that the clients push again, and the length of each at most.
MOST_SHARED, MOST_SHARED_LENGTH = 12, 200_000

# The kinds of a step: it changes nothing, it adds a chunk, or it changes something else.
READS, CHUNK, CHANGE = "reads", "chunk", "change"

Step = collections.namedtuple("Step", "request reply after kind")


class Fault(Exception):
    """The program did not do what it must."""


def digests_in(manifest):
    """Returns the digests in a manifest's text."""
    return re.findall(rb'sha(?:256|512):[0-9a-f]+', manifest)


class State:
    """What a client may find in its tenant."""

    def __init__(self, tenant, links=(), manifests=(), sessions=(), following=1, repositories=()):
        self.tenant = tenant
        self.links = dict(links)  # the content of each repository and digest
        self.manifests = dict(manifests)  # the same
        self.sessions = dict(sessions)  # the repository and the bytes of each number
        self.following = following  # the number of the next session
        self.repositories = set(repositories)  # those that exist, also without content

    def copy(self):
        return State(self.tenant, self.links, self.manifests, self.sessions, self.following, self.repositories)

    def use(self):
        """Returns the tenant's use."""
        blobs = {digest: data for (_, digest), data in self.links.items()}
        return sum(map(len, blobs.values())) + sum(len(data) for _, data in self.sessions.values())

    def starts(self, repository, kind=START, digest="", source=""):
        """A session is opened, by a start or by a mount."""
        after = self.copy()
        after.sessions[self.following] = repository, b""
        after.following += 1
        after.repositories.add(repository)
        return Step(request(kind, repository, digest, source), reply(first=self.following), after, CHANGE)

    def appends(self, number, body):
        repository, data = self.sessions[number]
        after = self.copy()
        after.sessions[number] = repository, data + body
        sent = request(APPEND, repository, number=number, span=(len(data), len(data) + len(body) - 1), body=body)
        return Step(sent, reply(first=len(data + body)), after, CHUNK)

    def closes(self, number, body, algorithm="sha256"):
        repository, data = self.sessions[number]
        digest = f"{algorithm}:{hashlib.new(algorithm, data + body).hexdigest()}"
        after = self.copy()
        del after.sessions[number]
        after.links[repository, digest] = data + body
        return Step(request(CLOSE, repository, digest, number=number, body=body), reply(first=len(data + body)), after, CHANGE)

    def closes_wrongly(self, number):
        sent = request(CLOSE, self.sessions[number][0], sha256(b"something else"), number=number, body=b"last")
        return Step(sent, reply(DIGEST_INVALID), self, READS)

    def abandons(self, number):
        after = self.copy()
        repository, _ = after.sessions.pop(number)
        return Step(request(ABANDON, repository, number=number), reply(), after, CHANGE)

    def mounts(self, repository, digest, source):
        sources = [source] if source else [f"{self.tenant}/{name}" for name in REPOSITORIES]
        data = next((self.links[name, digest] for name in sources if (name, digest) in self.links), None)
        if data is None:
            return self.starts(repository, MOUNT, digest, source)
        after = self.copy()
        after.links[repository, digest] = data
        after.repositories.add(repository)
        kind = READS if (repository, digest) in self.links else CHANGE
        return Step(request(MOUNT, repository, digest, source), reply(), after, kind)

    def deletes(self, repository, digest):
        sent = request(DELETE, repository, digest)
        holders = [
            name for (place, name), data in self.manifests.items() if place == repository and digest.encode() in digests_in(data)
        ]
        if holders:
            return Step(sent, reply(REFERENCED, digest=min(holders)), self, READS)
        after = self.copy()
        del after.links[repository, digest]
        return Step(sent, reply(), after, CHANGE)

    def puts_manifest(self, repository, digests, note):
        config, *layers = (f'{{"digest":"{digest}"}}' for digest in digests)
        text = f'{{"schemaVersion":2,"config":{config},"layers":[{",".join(layers)}],"annotations":{{"note":"{note}"}}}}'.encode()
        after = self.copy()
        after.manifests[repository, sha256(text)] = text
        return Step(request(PUT_MANIFEST, repository, body=text), reply(digest=sha256(text)), after, CHANGE)

    def deletes_manifest(self, repository, digest):
        after = self.copy()
        del after.manifests[repository, digest]
        return Step(request(DELETE_MANIFEST, repository, digest), reply(), after, CHANGE)

    def uses(self, repository):
        """Returns whether a repository has a link, a manifest or a session."""
        return any(place == repository for _, place, _ in self.names())

    def removes(self, repository):
        sent = request(REMOVE_REPO, repository)
        if repository not in self.repositories:
            return Step(sent, reply(NAME_UNKNOWN), self, READS)
        if self.uses(repository):
            return Step(sent, reply(REPO_IN_USE), self, READS)
        after = self.copy()
        after.repositories.remove(repository)
        return Step(sent, reply(), after, CHANGE)

    def fetches(self, repository, digest):
        """Returns the steps that read a blob in pieces of at most a MiB. If there is no such blob, it is one piece."""
        data = self.links.get((repository, digest))
        if data is None:
            return [Step(request(FETCH, repository, digest, span=(0, MIB - 1)), reply(BLOB_UNKNOWN), self, READS)]
        return [
            Step(
                request(FETCH, repository, digest, span=(place, place + MIB - 1)),
                reply(first=len(data), body=data[place:place + MIB]), self, READS,
            )
            for place in range(0, max(len(data), 1), MIB)
        ]

    def names(self):
        """Returns the names of what is there."""
        sessions = {("session", repository, number) for number, (repository, _) in self.sessions.items()}
        return {("link", *key) for key in self.links} | {("manifest", *key) for key in self.manifests} | sessions

    def finds(self, name):
        """Returns the steps that read what has a name."""
        kind, repository, key = name
        if kind == "link":
            return self.fetches(repository, key)
        if kind == "manifest":
            data = self.manifests.get((repository, key))
            found = reply(MANIFEST_UNKNOWN) if data is None else reply(body=data)
            return [Step(request(GET_MANIFEST, repository, key), found, self, READS)]
        place, data = self.sessions.get(key, (None, b""))
        found = reply(UPLOAD_UNKNOWN) if place is None else reply(first=len(data))
        return [Step(request(STATUS, repository, number=key), found, self, READS)]

    def counts_use(self):
        return Step(request(USAGE, f"{self.tenant}/one"), reply(first=self.use(), second=QUOTA), self, READS)

    def counts_blobs(self):
        blobs = len({digest for _, digest in self.links})
        return Step(request(SLOT_USE, f"{self.tenant}/one"), reply(first=blobs, second=UNLIMITED), self, READS)

    def counts_repositories(self):
        return Step(request(REPO_COUNT, f"{self.tenant}/one"), reply(first=len(self.repositories)), self, READS)

    def observed(self, names):
        """Returns all steps that read what has these names, the use, and the numbers of blobs and of repositories."""
        counted = [self.counts_use(), self.counts_blobs(), self.counts_repositories()]
        return counted + [step for name in sorted(names, key=str) for step in self.finds(name)]


def some_bytes(rng, in_files=True):
    """Returns bytes of a random length: mostly few, often more than a log has of a content, seldom more than a MiB, sometimes none. If not
    `in_files`, they are always few."""
    draw = rng.random()
    if not in_files:
        return rng.randbytes(rng.randint(0 if draw > 0.95 else 1, 2000))
    if draw < 0.1:
        return rng.randbytes(rng.randint(LONGEST - 100, LONGEST + 100))
    if draw < 0.17:
        return rng.randbytes(rng.choice([LONGEST, LONGEST + 1, LONGEST // 2]))
    most = 2 * MIB if draw < 0.174 else 100_000 if draw < 0.4 else 2000
    return rng.randbytes(rng.randint(0 if draw > 0.95 else 1, most))


class History:
    """What the clients of a store know in common: all that was replied to before the time `durable` is durable. The store keeps a first
    part of one history. So a durable change proves that all is durable that was replied to before its request was sent. `contents` are
    some that were pushed, which others push again."""

    def __init__(self):
        self.durable = 0.0
        self.contents = collections.deque(maxlen=MOST_SHARED)

    def shares(self, data):
        """Lets others push a content again."""
        if len(data) <= MOST_SHARED_LENGTH:
            self.contents.append(data)


class Client:
    """Makes random calls in its tenant, and knows what may be there after a crash: one of `possible`, which are the state after the
    last change that was promised, and those after each later call."""

    def __init__(self, tenant, rng, history=None, in_files=True):
        self.tenant, self.rng, self.history, self.in_files = tenant, rng, history or History(), in_files
        self.state = State(tenant)
        self.possible = [self.state]
        self.sent, self.replied = {}, {}  # the times of the calls that led to the possible states
        self.gone = collections.deque(maxlen=MOST_GONE)
        self.kinds = collections.Counter()
        self.made = 0
        self.fault = None
        # whether another program may take the folder over from the one that the client works with
        self.loses = False

    def promises(self, state):
        """Notes that the calls that led to a possible state are durable."""
        del self.possible[:self.possible.index(state)]

    def promises_all(self):
        """Notes that all calls until now are durable."""
        self.possible = [self.state]
        self.sent, self.replied = {}, {}

    def sends(self, connection, step):
        """Sends the request of a step."""
        if step.kind != READS:
            self.gone.extend(self.state.names() - step.after.names())
            self.state = step.after
            self.possible.append(step.after)
            self.sent[step.after] = time.monotonic()
        connection.writes(step.request)

    def receives(self, connection, step, promise):
        """Receives the reply of a step, and compares it. `promise` is the policy under which it promises that the step is durable."""
        found = connection.hears()
        if self.loses and found in (reply(MEMORY), reply(UNREADABLE)) and step.request[0] in (APPEND, CLOSE, FETCH):
            raise Ended  # another program has the folder, and this one finds no file of a content there
        if found != step.reply:
            raise Fault(f"{self.tenant}: the reply to {step.request[:80]!r} is {found[:80]!r}, and not {step.reply[:80]!r}")
        if step.kind == CHANGE or step.kind == CHUNK and promise == "each":
            self.promises(step.after)
            self.history.durable = max(self.history.durable, self.sent[step.after])
        elif step.kind == CHUNK:
            self.replied[step.after] = time.monotonic()

    def plays(self, connection, step, promise="closes"):
        """Makes the call of a step."""
        self.sends(connection, step)
        self.receives(connection, step, promise)

    def repository(self):
        """Returns a repository for a new link or session."""
        return f"{self.tenant}/{self.rng.choices(REPOSITORIES, [5, 5, 1])[0]}"

    def removed(self, keys):
        """Returns the one of the links or manifests that is deleted next."""
        return self.rng.choice([key for key in keys if key[0].endswith(RARE)] or keys)

    def removal(self):
        """Returns the name and the step of the removal of a repository."""
        repository = f"{self.tenant}/{self.rng.choices(REPOSITORIES, [1, 1, 8])[0]}"
        step = self.state.removes(repository)
        if step.kind == CHANGE:
            return "removal", step
        return "removal of nothing" if repository not in self.state.repositories else "removal in use", step

    def some_bytes(self):
        return some_bytes(self.rng, self.in_files)

    def chunk(self, number):
        """Returns the next bytes of a session: sometimes a part of a content that was pushed before."""
        _, data = self.state.sessions[number]
        shared = [one for one in list(self.history.contents) if one.startswith(data)] if not data or self.rng.random() < 0.5 else []
        if shared and self.rng.random() < 0.5:
            rest = self.rng.choice(shared)[len(data):]
            return rest[:self.rng.choice([LONGEST, len(rest) // 2, len(rest)])] or b"a"
        return self.some_bytes() or b"a"

    def last_chunk(self, number):
        """Returns the last bytes of a session: if they can be, those of a content that was pushed before."""
        _, data = self.state.sessions[number]
        shared = [one for one in list(self.history.contents) if one.startswith(data)]
        if shared and self.rng.random() < (0.3 if not data else 0.9):
            return self.rng.choice(shared)[len(data):]
        rest = self.some_bytes()
        self.history.shares(data + rest)
        return rest

    def chosen(self):
        """Returns the name and the step of a random call that is possible now."""
        state, rng = self.state, self.rng
        links, manifests, sessions = sorted(state.links), sorted(state.manifests), sorted(state.sessions)
        draw = rng.random()
        if sessions and (draw < 0.45 or len(sessions) >= MOST_SESSIONS):
            number = rng.choice(sessions)
            kind = rng.choices(["append", "close", "close sha512", "abandon", "wrong close"], [50, 35, 5, 7, 3])[0]
            last = self.last_chunk(number) if kind.startswith("close") else b""
            if len(state.sessions[number][1]) + len(last) > LONGEST:
                kind = kind.removesuffix(" sha512")  # which needs all bytes in memory
            make = {
                "append": lambda: state.appends(number, self.chunk(number)),
                "close": lambda: state.closes(number, last),
                "close sha512": lambda: state.closes(number, last, "sha512"),
                "abandon": lambda: state.abandons(number),
                "wrong close": lambda: state.closes_wrongly(number),
            }
            return kind, make[kind]()
        # not always if there are many: manifests may refer to all of them
        if links and (draw < 0.55 or len(links) > MOST_LINKS and rng.random() < 0.8):
            return "delete", state.deletes(*self.removed(links))
        if len(manifests) > MOST_MANIFESTS or manifests and draw < 0.59:
            return "delete of a manifest", state.deletes_manifest(*self.removed(manifests))
        if links and draw < 0.66:
            repository = rng.choice(links)[0]
            digests = [digest for place, digest in links if place == repository]
            return "manifest", state.puts_manifest(repository, rng.sample(digests, min(3, len(digests))), rng.random())
        if links and draw < 0.75:
            source, digest = rng.choice(links)
            return "mount", state.mounts(self.repository(), digest, rng.choice([source, ""]))
        if draw < 0.76:
            return "mount of nothing", state.mounts(self.repository(), sha256(rng.randbytes(8)), "")
        if draw < 0.82:
            return self.removal()
        return "start", state.starts(self.repository())

    def leases(self, connection):
        """Reads a part of a blob under a lease."""
        (repository, digest), data = self.rng.choice(sorted(self.state.links.items()))
        leased = connection.calls(LEASE, repository, digest)
        place = self.rng.randint(0, len(data))
        read = connection.calls(READ, digest=digest, number=leased.second, span=(place, place + 1000))
        back = connection.calls(GIVE_BACK, number=leased.second)
        if self.loses and read.status == UNREADABLE:
            raise Ended  # another program has the folder, and this one finds no file of a content there
        if (leased.status, leased.first, read.body, back.status) != (0, len(data), data[place:place + 1001], 0):
            raise Fault(f"{self.tenant}: a read of {digest} under a lease is wrong")

    def some_calls(self, connection, promise):
        """Makes a call, or sends the requests of some calls before the first reply. Returns their kinds."""
        draw = self.rng.random()
        if draw < 0.02 and self.state.links:
            self.leases(connection)
            return ["lease"]
        if draw < 0.03:
            connection.calls(SWEEP)
            return ["sweep"]
        if draw < 0.1 and self.state.links:
            self.plays(connection, self.rng.choice(self.state.fetches(*self.rng.choice(sorted(self.state.links)))))
            return ["fetch"]
        sent = []
        # If another program has taken over, a chunk fails, and no later call may be made then: it could be in the log without the chunk.
        for _ in range(1 if self.loses else self.rng.choice([1, 1, 1, 2, 5])):
            sent.append(self.chosen())
            self.sends(connection, sent[-1][1])
        for _, step in sent:
            self.receives(connection, step, promise)
        return [kind for kind, _ in sent]

    def works(self, connection, promise, calls=None):
        """Makes calls until the connection ends, or this number of them at least. Keeps the first fault."""
        last = None if calls is None else self.made + calls
        try:
            while last is None or self.made < last:
                kinds = self.some_calls(connection, promise)
                self.kinds.update(kinds)
                self.made += len(kinds)
        except Ended:
            if calls is not None:
                self.fault = f"{self.tenant}: the connection ends"
        except (Fault, OSError) as error:
            self.fault = str(error)

    def settles(self):
        """Notes after a crash what the other clients' durable changes prove, before any of them goes on."""
        for state in list(self.possible):
            if self.replied.get(state, math.inf) < self.history.durable:
                self.promises(state)
        self.sent, self.replied = {}, {}

    def fitting(self, connection):
        """Reads all that may be there. Returns those of the possible states that it fits, and the number of comparisons."""
        names = set(self.gone).union(*(state.names() for state in self.possible))
        runs = [state.observed(names) for state in self.possible]
        calls = list(dict.fromkeys(step.request for run in runs for step in run))
        found = {sent: connection.asks(sent) for sent in calls}
        fits = [state for state, run in zip(self.possible, runs) if all(found[step.request] == step.reply for step in run)]
        if not fits:
            raise Fault(f"{self.tenant}: {self.difference(found, runs[-1])}")
        return fits, len(calls)

    def finds(self, connection):
        """Finds out which of the possible states is there. Returns the number of comparisons."""
        fits, count = self.fitting(connection)
        self.state = fits[-1]
        self.promises_all()
        return count

    def looks(self, connection):
        """Does the same, and opens and abandons a session, whose number must be the next one."""
        fits, count = self.fitting(connection)
        repository = self.repository()
        number = connection.calls(START, repository).first
        states = [state for state in fits if state.following == number]
        if not states:
            raise Fault(f"{self.tenant}: a new session is {number}, and not {fits[-1].following}")
        self.state = states[-1].starts(repository).after
        self.promises_all()
        self.plays(connection, self.state.abandons(number))
        return count + 2

    def difference(self, found, run):
        """Describes how what was found differs from the last possible state."""
        wrong = [step for step in run if found[step.request] != step.reply]
        first = wrong[0] if wrong else run[0]
        return (
            f"{len(wrong)} of {len(run)} replies are those of none of {len(self.possible)} possible states, such as that to "
            f"{first.request[:150]!r}: {found[first.request][:60]!r}, and not {first.reply[:60]!r}"
        )

    def finishes(self, connection, count):
        """Closes some of the sessions that an earlier run has left. Their bytes must be those that were sent."""
        for number in sorted(self.state.sessions)[:count]:
            self.plays(connection, self.state.closes(number, b"the last bytes"))

    def empties(self, connection):
        """Removes everything from the tenant, its repositories too."""
        while self.state.sessions:
            self.plays(connection, self.state.abandons(min(self.state.sessions)))
        while self.state.manifests:
            self.plays(connection, self.state.deletes_manifest(*min(self.state.manifests)))
        while self.state.links:
            self.plays(connection, self.state.deletes(*min(self.state.links)))
        while self.state.repositories:
            self.plays(connection, self.state.removes(min(self.state.repositories)))
