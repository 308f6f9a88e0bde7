"""Rounds of starts, clients, and kills or losses of power, and the comparisons after them."""
import collections
import contextlib
import http.client
import json
import random
import shutil
import signal
import subprocess
import sys
import threading
import time

from crash import paths, tampering
from crash.asking import Interrupted
from crash.disk import Disk
from crash.facts import Facts, Fault
from crash.looks import Look
from crash.program import KILLS, SLOTS, Killable
from crash.pushers import PodmanPusher, PodmanStore, Skopeo
from crash.raw import Raw
from rewriting import litter

# The number of rounds after which they begin with an empty folder.
ROUNDS_OF_A_FOLDER = 8

# The greatest number of seconds before a kill, the share of kills while the programs start, the greatest number of seconds until such a
# one, and the share of kills before the clients change anything.
MOST_TIME, EARLY, MOST_EARLY, IDLE = 1.5, 0.12, 0.3, 0.12

# The share of times at which clients work for which the log gets long and is rewritten, and the repository of the blobs for this.
REWRITTEN, LITTER = 0.5, "pod/litter"

# The number of folders in which a loss must be found if nothing is synced, and of turns of a client before others change something.
MOST_TRIES, TURNS, MOST_TURNS = 8, 60, 2000

# By how many milliseconds each sync takes longer. Most losses of power then come between a write and its sync.
SYNC_MS = (0, 3, 10, 30)

# The number of losses of power for each failing disk, the settings of the library for a failure, the statuses of registryd after it
# (6 if it comes while the programs start), and the number of seconds until it comes at most.
FAILING = 4
FAILURES = ("CRASH_FAIL_SYNC", "CRASH_FAIL_WRITE", "CRASH_FAIL_DATABASE_SYNC", "CRASH_FAIL_DATABASE_WRITE")
STATUSES_OF_A_FAILURE, LONGEST = (6, 9), 20

# The status of a start that finds the log or the database damaged or lost.
DAMAGED = 8

# The timeout for the end of unused uploads, in seconds.
PATIENCE = 30

# The failures of a registry, of which each ends the rounds of a folder.
WRONG = (Fault, Interrupted, AssertionError, OSError, subprocess.TimeoutExpired)


class Log:
    """What a loss of power may leave of a log instead of what was written. `trace` is the file in which the library notes the calls on the
    log, and `kept` the folder into which it moves removed files."""

    def __init__(self, folder, trace, kept):
        self.folder, self.trace, self.kept = folder, trace, kept
        self.stays()

    def loses_power(self, room):
        """Leaves what a loss of power may leave. Returns the number of bytes lost, and of files that lack a sync."""
        before = dict(paths.counts)
        paths.lose_power(room, self.folder, self.synced)
        self.stays()
        return [paths.counts[name] - before[name] for name in ("bytes lost", "faults")]

    def stays(self):
        """Takes the files that are there for synced."""
        self.trace.unlink(missing_ok=True)
        shutil.rmtree(self.kept, ignore_errors=True)
        self.kept.mkdir()
        self.synced = paths.log_files(self.folder)


class Folder:
    """A folder of a registry, its clients, and what is on its disk."""

    def __init__(self, lane, path, has_losses):
        rng, store, most = lane.rng, lane.store, lane.most
        self.path, self.has_losses = path / "data", has_losses
        self.facts = Facts(("acme", "other"))
        self.disk = Disk()
        self.log = Log(self.path, lane.path / "trace", lane.kept)
        self.has_podman = bool(store.images) and rng.random() < 0.5
        seeds = [rng.randrange(1 << 40) for _ in range(4)]
        folder = path / "images"
        folder.mkdir(parents=True)
        places = [("acme", "a"), ("acme", "b"), ("other", "c")]
        self.raw = [Raw(tenant, name, self.facts, seed, most) for (tenant, name), seed in zip(places, seeds)]
        if self.has_podman:
            self.clients = [*self.raw, PodmanPusher("pod", "podman", self.facts, seeds[3], folder, store)]
        else:
            self.clients = [*self.raw, Skopeo("other", "skopeo", self.facts, seeds[3], folder)]


class Lane:
    """A sequence of rounds. `path`, `rng` and `kept` are those of a loss of power of a log, too."""

    def __init__(self, path, seed, most):
        self.path, self.rng, self.most = path, random.Random(seed), most
        self.kept = path / "kept"
        self.shim = paths.build_shim(path)
        self.store = PodmanStore(path / "podman")
        self.folder, self.made, self.servers, self.now = None, 0, [], "before the first folder"
        self.counts = collections.Counter()

    def clears(self):
        for server in self.servers:
            server.ends_all()
        self.store.clears()

    def reports(self, texts):
        """Prints what is wrong, and counts it."""
        for text in texts:
            print(f"WRONG registry: {self.now}: {text}", file=sys.stderr, flush=True)
        self.counts["wrong"] += len(texts)

    def fresh(self, has_losses):
        """Begins with an empty folder."""
        if self.folder:
            shutil.rmtree(self.folder.path.parent)
        self.made += 1
        self.now, self.last = f"folder {self.made}", "nothing"
        (self.path / "writes").unlink(missing_ok=True)
        self.folder = Folder(self, self.path / f"folder{self.made}", has_losses)

    def starts(self, *words, failing=None):
        """Starts the programs on the folder. `failing` are settings of the library."""
        environment = {"LD_PRELOAD": str(self.shim), "CRASH_SYNC_MS": str(self.rng.choice(SYNC_MS)), **(failing or {})}
        if self.folder.has_losses:
            environment |= {"CRASH_TRACE": str(self.path / "trace"), "CRASH_KEEP": str(self.kept)}
            environment["CRASH_WRITES"] = str(self.path / "writes")
        self.servers.append(Killable(self.folder.path, *words, environment=environment))
        self.servers[-1].may_end = failing is not None
        return self.servers[-1]

    def looks(self, server, finds_no_room=False):
        """Compares everything. Returns what is wrong."""
        look = Look(server, self.folder.facts, self.rng.random(), finds_no_room)
        try:
            return look.everything()
        except WRONG:
            self.reports(look.wrong)
            raise
        finally:
            self.adds(look)

    def adds(self, look):
        """Adds what was counted."""
        self.counts["requests"] += look.requests
        self.counts["comparisons"] += look.comparisons
        self.counts["in flight"] += look.in_flight

    def runs(self, kills, losses):
        """Makes this number of rounds."""
        for has_losses, rounds in self.planned(kills, losses):
            self.fresh(has_losses)
            try:
                for kind in rounds:
                    self.round(kind)
                self.finish()
            except WRONG as error:
                said = self.servers[-1].logged()[-1500:] if self.servers else ""
                self.reports([f"{error!r}. The log ends with: {said}"])
            self.ends_all()

    def planned(self, kills, losses):
        """Returns the rounds of each folder, and whether they have losses of power. Such folders have kills and failing disks too."""
        mixed = ["loss"] * losses + ["kill"] * min(kills, losses // 2) + ["failure"] * (losses // FAILING)
        self.rng.shuffle(mixed)
        plain = ["kill"] * (kills - min(kills, losses // 2))
        size = ROUNDS_OF_A_FOLDER
        plan = [(True, mixed[place:place + size]) for place in range(0, len(mixed), size)]
        plan += [(False, plain[place:place + size]) for place in range(0, len(plain), size)]
        self.rng.shuffle(plan)
        return plan

    def round(self, kind):
        """Starts the programs, compares everything, lets the clients work, and kills the programs."""
        # what the kernel has is not lost by a kill
        policies = ["closes", "closes", "each"] + ([] if self.folder.has_losses else ["never"])
        policy = self.rng.choice(policies)
        if kind == "failure":
            self.fails(policy)
            return
        self.now = f"round {self.counts['kills'] + self.counts['losses'] + 1}, folder {self.made}, after {self.last}, --sync {policy}"
        server, draw = self.starts("--sync", policy), self.rng.random()
        if draw < EARLY:
            time.sleep(self.rng.uniform(0, MOST_EARLY))
            server.kills(self.rng.choice(["registryd", "instant"]), self.rng, 0)
        else:
            server.is_ready()
            self.reports(self.looks(server))
            if draw < EARLY + IDLE:
                # also what was in flight at an earlier kill, and is there now, must stay
                server.kills("instant", self.rng, 0)
            else:
                self.works(server, policy, self.rng.uniform(0.05, MOST_TIME), self.rng.choice(KILLS))
        self.crashes(server, kind)

    def fails(self, policy):
        """Lets a sync or a write of the log or of the database fail. The programs must end by themselves, unless a write of the database finds
        no room, after which they go on. Sometimes what was not synced is lost too."""
        setting = {self.rng.choice(FAILURES): str(self.rng.randint(3, 60))}
        self.now = f"a failure after {self.last}, folder {self.made}, --sync {policy}, {setting}"
        server, kind = self.starts("--sync", policy, failing=setting), self.rng.choice(["failure", "loss"])
        try:
            server.is_ready()
            self.reports(self.looks(server, "CRASH_FAIL_DATABASE_WRITE" in setting))
            self.works(server, policy, LONGEST, "instant")
        except (Fault, Interrupted):
            # the message of a fault is that of a start, or of clients that find no other fault
            if any(client.fault for client in self.folder.clients):
                raise
        status = server.waits()
        if status == -signal.SIGKILL:
            # the clients were too slow for the failure
            self.crashes(server, "kill")
            return
        if status not in STATUSES_OF_A_FAILURE:
            self.reports([f"the status of registryd is {status}"])
        self.counts["failures"] += 1
        self.crashes(server, kind)

    def works(self, server, policy, seconds, kill):
        """Lets the clients work for some seconds, or until the programs end. Then kills the programs."""
        clients = self.folder.clients
        for client in self.folder.raw:
            client.promise = "each" if policy == "each" else "closes"
        before = sum(client.requests for client in clients)
        threads = [threading.Thread(target=client.works, args=(server,)) for client in clients]
        if self.rng.random() < REWRITTEN:
            threads.append(threading.Thread(target=self.rewrites, args=(server,)))
        for thread in threads:
            thread.start()
        end = time.monotonic() + seconds
        while time.monotonic() < end and server.process.poll() is None:
            time.sleep(min(0.05, max(0, end - time.monotonic())))
        server.kills(kill, self.rng, self.rng.choice([0, 0.001, 0.01, 0.05]))
        if kill == "blobd" and server.waits() != 1:
            self.reports([f"the status of registryd is {server.process.returncode} after its blobd was killed"])
        for thread in threads:
            thread.join()
        self.counts["requests"] += sum(client.requests for client in clients) - before
        if any(client.fault for client in clients):
            raise Fault("; ".join(client.fault for client in clients if client.fault))

    def rewrites(self, server):
        """Makes so long a log that it has several files, and asks for a rewriting, twice or until the programs end."""
        with contextlib.suppress(*WRONG, http.client.HTTPException):
            for _ in range(2):
                litter(server.client(), repo=LITTER)
                server.process.send_signal(signal.SIGUSR1)

    def crashes(self, server, kind):
        """Takes the power away, or waits for the end of the programs if the next start need not do so."""
        folder, self.last = self.folder, kind
        if kind == "kill":
            self.counts["kills"] += 1
        if not folder.has_losses:
            if self.rng.random() < 0.5:
                server.waits()
            return
        if kind == "loss":
            server.ends_all()
        self.ended(server)
        if kind == "loss":
            self.loses(("log", "database"))

    def ended(self, server):
        """Waits for the end of the programs, and notes what they have written."""
        server.waits()
        self.folder.disk.runs(self.path / "writes", self.folder.path)

    def loses(self, parts):
        """Leaves in the folder what a loss of power may leave of these parts."""
        self.counts["losses"] += 1
        folder = self.folder
        if not folder.path.exists():
            return
        if "database" in parts:
            self.counts["bytes lost"] += folder.disk.loses_power(folder.path, self.rng)
        if "log" in parts:
            lost, faults = folder.log.loses_power(self)
            self.counts["bytes lost"] += lost
            self.counts["wrong"] += faults
        else:
            folder.log.stays()

    def finish(self):
        """Goes on with each open upload, and deletes everything. Then nothing may be left: also uploads that no client knows have to end."""
        facts = self.folder.facts
        self.now = f"the end of folder {self.made}, after {self.last}"
        server = self.starts()
        server.is_ready()
        self.reports(self.looks(server))
        look = Look(server, facts, 0)
        look.finishes()
        look.removes()
        litter(server.client(), repo=LITTER)
        look.compares("the status after a signal", server.end() == 0, server.process.returncode)
        server = self.starts("--session-s", "1", "--empty-session-s", "1")
        server.is_ready()
        end = time.monotonic() + PATIENCE
        while (left := self.left(server)) and time.monotonic() < end:
            time.sleep(0.1)
        look.compares("nothing is left of a store", not left, left)
        look.compares("the status after a signal", server.end() == 0, server.process.returncode)
        self.adds(look)
        self.reports(look.wrong)

    def left(self, server):
        """Returns what is left in the store after everything was deleted."""
        left = {tenant: server.metric(f'registryd_tenant_used_bytes{{tenant="{tenant}"}}') for tenant in self.folder.facts.tenants}
        left["uploads"] = server.metric("registryd_uploads")
        status = json.loads(server.client().ask("GET", "/status").body)
        left["repositories"] = sum(one["repositories"] for one in status["tenants"] if one["name"] in self.folder.facts.tenants)
        if not self.folder.has_podman:
            left["slots"] = SLOTS - server.metric("registryd_free_slots")
        return {name: value for name, value in left.items() if value}

    def ends_all(self):
        for server in self.servers:
            server.ends_all()
        self.servers.clear()

    def must_fail(self):
        """Tests that the clients miss what is lost if nothing is synced, of the log alone and of the database alone, and that the comparisons
        find changes of which no client knows."""
        found = {part: self.finds_loss(part) for part in ("log", "database")}
        self.reports([f"with `--sync never` no lost change of the {part} is found" for part in found if not found[part]])
        missed = self.tampers()
        self.reports([f"a change of which no client knows is not found: {name}" for name in missed])

    def tampers(self):
        """Returns the kinds of changes that the comparisons do not find."""
        self.fresh(False)
        server = self.starts()
        server.is_ready()
        clients = self.folder.raw
        for client in clients:
            client.connects(server)
        for turn in range(MOST_TURNS):
            if turn >= TURNS and tampering.has_enough(self.folder.facts):
                break
            for client in clients:
                client.turn()
        self.counts["requests"] += sum(client.requests for client in clients)
        missed = tampering.missed(server, self.folder.facts)
        self.ends_all()
        return missed

    def finds_loss(self, part):
        """Returns whether a loss is found: by the comparisons of some try, or, if each start refuses what is left, by the starts."""
        is_refused = False
        for _ in range(MOST_TRIES):
            self.fresh(True)
            server = self.starts("--sync", "never")
            server.is_ready()
            self.works(server, "never", MOST_TIME, "instant")
            self.ended(server)
            self.loses((part,))
            # The mark of the policy is on the disk, so the start goes on although it may find the loss by itself.
            server = self.starts()
            try:
                server.is_ready()
                missed = self.looks(server)
            except WRONG as error:
                print(f"registry: after a loss of the {part} with `--sync never`: {error!r}: {server.logged()[-300:]}")
                missed, is_refused = [], is_refused or server.process.poll() == DAMAGED
            self.ends_all()
            if missed:
                print(f"registry: after a loss of the {part} with `--sync never`, {len(missed)} comparisons fail, such as: {missed[0][:200]}")
                return True
        return is_refused
