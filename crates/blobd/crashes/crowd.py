"""Kills and losses of power of a program whose connections all use one tenant, so that its sessions, its use, and the commits of its
log are those of all."""
import contextlib
import random
import threading
import time

from data_folder import LONGEST, Ended, content_files, log_files
from frames import ABANDON, APPEND, BLOB_UNKNOWN, CLOSE, DELETE, START, STAT, STATUS, USAGE, sha256
from kills import lose_power
from model import Fault
from room import compares, counts, ends_well, wait_until

TENANT = "t0"
CONNECTIONS = 16

# The number of rounds, and the greatest number of seconds before a kill.
ROUNDS, MOST_TIME = 6, 0.3

# The number of rounds after which nobody asks for anything, and the seconds in which each reply must come.
QUIET_ROUNDS, QUIET_PATIENCE = 12, 20


class Crowd:
    """What the connections know in common. Each has a repository of its own."""

    def __init__(self):
        self.lock = threading.Lock()
        self.sizes = {}  # of the blobs that are there, by repository and digest
        self.deleted = set()
        self.unsure = {}  # the sizes of blobs that may be there
        self.open = {}  # the repository of each session that may be there, in a list
        self.last = 0  # the greatest number of a session
        self.fault = None

    def repositories(self):
        return [f"{TENANT}/r{number}" for number in range(CONNECTIONS)]

    def calls(self, connection, command, *fields, **more):
        """Makes a call that must succeed, and returns the first number of its reply."""
        found = connection.calls(command, *fields, **more)
        if found.status:
            raise Fault(f"the status of command {command} is {found.status}")
        return found.first

    def uploads(self, connection, repository, rng):
        """Uploads a blob in some chunks, or abandons its session. Deletes some blobs."""
        number = self.calls(connection, START, repository)
        with self.lock:
            self.open[number] = [repository]
            self.last = max(self.last, number)
        chunks = [rng.randbytes(rng.choice([10, 1000, LONGEST, 50_000])) for _ in range(rng.randint(1, 4))]
        for chunk in chunks[:-1]:
            self.calls(connection, APPEND, repository, number=number, body=chunk)
        data = b"".join(chunks)
        key = repository, sha256(data)
        if rng.random() < 0.2:
            self.calls(connection, ABANDON, repository, number=number)
        else:
            self.unsure[key] = len(data)
            self.calls(connection, CLOSE, *key, number=number, body=chunks[-1])
            self.sizes[key] = self.unsure.pop(key)
        with self.lock:
            del self.open[number]
        if key in self.sizes and rng.random() < 0.2:
            self.unsure[key] = self.sizes.pop(key)
            self.calls(connection, DELETE, *key)
            del self.unsure[key]
            self.deleted.add(key)

    def works(self, connection, repository, rng):
        """Uploads until the connection ends. Keeps the first fault."""
        try:
            while True:
                self.uploads(connection, repository, rng)
                counts["calls"] += 1
        except Ended:
            pass
        except (Fault, OSError) as error:
            self.fault = str(error)

    def looks(self, connection):
        """Compares what is there with what was replied to, and abandons all sessions. The use must be that of the blobs and the sessions
        which are there."""
        for key, size in self.sizes.items():
            compares(f"the size of {key}", connection.calls(STAT, *key)[:2], (0, size))
        for key in self.deleted:
            compares(f"the deleted blob {key}", connection.calls(STAT, *key).status, BLOB_UNKNOWN)
        for key, size in self.unsure.items():
            if connection.calls(STAT, *key).status == 0:
                self.sizes[key] = size
        self.unsure.clear()
        use = self.calls(connection, USAGE, f"{TENANT}/last")
        number = self.calls(connection, START, f"{TENANT}/last")
        compares("whether a new session has a new number", number > self.last, True)
        places = {**dict.fromkeys(range(self.last + 1, number), self.repositories()), **self.open}
        sizes = {digest: size for (_, digest), size in self.sizes.items()}
        compares("the use", use, sum(sizes.values()) + sum(self.ends(connection, *session) for session in places.items()))
        self.calls(connection, ABANDON, f"{TENANT}/last", number=number)
        self.open, self.last = {}, number

    def ends(self, connection, number, repositories):
        """Abandons a session if it is there, in one of these repositories. Returns its length."""
        for repository in repositories:
            found = connection.calls(STATUS, repository, number=number)
            if found.status == 0:
                self.calls(connection, ABANDON, repository, number=number)
                return found.first
        return 0


def crowds(room):
    """Kills the program, and takes the power away, while all connections work in one tenant."""
    for number in range(ROUNDS * room.long):
        if number % 3 == 0:
            folder, crowd = room.fresh(), Crowd()
        before = log_files(folder)
        settings = {**room.traced(), "CRASH_SYNC_MS": str(room.rng.choice([0, 2, 5]))}
        blobd = room.starts(folder, connections=CONNECTIONS, settings=settings)
        lines = blobd.opens()
        threads = [
            threading.Thread(target=crowd.works, args=(line, repository, random.Random(room.rng.random())))
            for line, repository in zip(lines, crowd.repositories())
        ]
        for thread in threads:
            thread.start()
        time.sleep(room.rng.uniform(0.05, MOST_TIME))
        blobd.process.kill()
        for thread in threads:
            thread.join()
        blobd.ends()
        if crowd.fault:
            raise Fault(crowd.fault)
        if number % 2:
            lose_power(room, folder, before)
        else:
            counts["kills"] += 1
        blobd = room.starts(folder)
        crowd.looks(blobd.opens()[0])
        wanted = {digest for (_, digest), size in crowd.sizes.items() if size > LONGEST}
        wait_until("a file of each content, and no other", lambda: sorted(map(sha256, content_files(folder).values())) == sorted(wanted))
        ends_well("an end after a crash of a crowd", blobd)


def quiet_crowds(room):
    """Tests that each of many connections which ask at the same time gets its reply, although nobody asks for anything meanwhile: a commit
    wakes all that wait for it."""
    blobd = room.starts(room.fresh(), connections=CONNECTIONS, settings={"CRASH_SYNC_MS": "2"})
    lines = blobd.opens()
    for _ in range(QUIET_ROUNDS):
        barrier, numbers = threading.Barrier(CONNECTIONS), {}

        def asks(place):
            barrier.wait()
            with contextlib.suppress(Ended, OSError):  # if the program was killed, because others got no reply
                numbers[place] = lines[place].calls(START, f"{TENANT}/r{place}").first

        threads = [threading.Thread(target=asks, args=(place,), daemon=True) for place in range(CONNECTIONS)]
        for thread in threads:
            thread.start()
        end = time.monotonic() + QUIET_PATIENCE
        for thread in threads:
            thread.join(max(0, end - time.monotonic()))
        compares("the number of requests without a reply", CONNECTIONS - len(numbers), 0)
        if len(numbers) < CONNECTIONS:
            blobd.process.kill()
            return
        for place, number in numbers.items():
            lines[place].calls(ABANDON, f"{TENANT}/r{place}", number=number)
    ends_well("a program after crowds", blobd)
