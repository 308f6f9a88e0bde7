"""A registryd with a folder that is killed: it alone, its blobd alone, one after the other, or both at one instant."""
import os
import pathlib
import signal
import time

from crash.facts import Fault
from server import Server

# The timeout for the start of programs and for the end of killed ones, in seconds.
PATIENCE = 120

TENANTS = ("acme", "other", "pod")
SLOTS = 1024

# Which programs a kill ends. `instant` stops both before it kills them, as if the machine had ended. `ending` does so while they end by a
# signal.
KILLS = ("registryd", "blobd", "both", "instant", "ending")

# The greatest number of seconds after the signal.
MOST_ENDING = 0.2


class Killable(Server):
    """A registryd, which leads a session, and the other processes of the session."""

    def __init__(self, folder, *words, environment=None):
        self.is_dying = self.may_end = False
        options = ["--data", str(folder)] if folder else []
        if "--session-s" not in words:
            # no upload ends because the clients are slow
            options += ["--session-s", "3600", "--empty-session-s", "3600"]
        words = [*options, "--slots", str(SLOTS), "--max-blob", str(1 << 24), "--lines", "8", "--sweep-ms", "50", *words]
        quotas = [f"{tenant}=1000000000,{SLOTS}" for tenant in TENANTS]
        self.address = None
        super().__init__(*words, tenants=quotas, start_new_session=True, env={**os.environ, **(environment or {})})

    def listens(self, seconds=0):
        """Does not wait: some kills come before the program listens."""

    def is_ready(self):
        """Waits until the program listens."""
        try:
            super().listens(PATIENCE)
        except AssertionError:
            raise Fault(f"the program does not start: status {self.process.poll()}") from None

    def members(self):
        """Returns the ids of the processes of the session that have not ended."""
        found = []
        for path in pathlib.Path("/proc").glob("[0-9]*/stat"):
            try:
                text = path.read_text()
            except OSError:
                continue
            state, _, _, session = text[text.rindex(")") + 2:].split(" ")[:4]
            if int(session) == self.process.pid and state not in "ZX":
                found.append(int(path.parent.name))
        return found

    def kills(self, kind, rng, pause):
        """Kills the programs of this kind, one some seconds after the other for `both`."""
        self.is_dying = True
        own = self.process.pid
        others = [number for number in self.members() if number != own]
        both = rng.sample([own, *others], 1 + len(others))
        victims = {"registryd": [own], "blobd": others}.get(kind, both)
        if kind == "ending":
            signals(own, signal.SIGTERM)
            time.sleep(rng.uniform(0, MOST_ENDING))
        if kind in ("instant", "ending"):
            for number in victims:
                signals(number, signal.SIGSTOP)
        for number in victims:
            signals(number, signal.SIGKILL)
            if kind == "both":
                time.sleep(pause)

    def ends_all(self):
        """Kills what is left."""
        self.is_dying = True
        for number in self.members():
            signals(number, signal.SIGKILL)
        self.waits()

    def waits(self):
        """Waits until all processes have ended. Returns the status."""
        end = time.monotonic() + PATIENCE
        status = self.process.wait(timeout=PATIENCE)
        while self.members():
            if time.monotonic() > end:
                raise Fault(f"the processes {self.members()} do not end")
            time.sleep(0.005)
        return status


def signals(number, which):
    """Sends a signal to a process that may have ended."""
    try:
        os.kill(number, which)
    except ProcessLookupError:
        pass
