"""Runs tests one after the other, and starts a registry over a stub store with faults."""
import collections, contextlib, json, os, re, sys, threading, time

import server

# The numbers of a tenant's uploads that stay open for a later request, and of those that end with their request.
PASSING = 4
LASTING = server.UPLOADS - PASSING

STUB = os.path.join(os.path.dirname(os.path.abspath(__file__)), "stub_store.py")


@contextlib.contextmanager
def serving_stub(rules, *words, **options):
    """Starts a registryd over `stub_store.py` with these rules."""
    blobd = server.BLOBD
    server.BLOBD, os.environ["STUB_RULES"] = STUB, json.dumps(rules)
    try:
        with server.serving(*words, **options) as started:
            yield started
    finally:
        server.BLOBD = blobd
        del os.environ["STUB_RULES"]


def calls(served):
    """Returns the number of calls of each command to a stub store so far."""
    return collections.Counter(re.findall(r"^stub: (\d+) ", served.logged(), re.MULTILINE))


class Asking(threading.Thread):
    """A request in the background, on a connection of its own. `answered()` waits for the response."""

    def __init__(self, served, *words):
        super().__init__()
        self.client, self.words, self.answer = served.client(), words, None
        self.start()

    def run(self):
        self.answer = self.client.ask(*self.words)

    def answered(self):
        self.join(60)
        assert self.answer is not None, f"{self.words[:2]} has no response"
        return self.answer


@contextlib.contextmanager
def every_upload(served, repo):
    """Opens the maximum number of a tenant's uploads: some that stay open, whose paths it returns, and some by requests whose content
    does not end before this does."""
    client = served.client()
    before = served.metric("registryd_uploads")
    opened = [client.ask("POST", f"/v2/{repo}/blobs/uploads/") for _ in range(LASTING)]
    assert {answer.status for answer in opened} == {202}, [answer.status for answer in opened]
    head = f"POST /v2/{repo}/blobs/uploads/?digest={server.sha256(b'ab')} HTTP/1.1\r\nHost: x\r\nContent-Length: 2\r\n\r\na"
    lines = [served.socket() for _ in range(PASSING)]
    try:
        for line in lines:
            line.sendall(head.encode())
        assert until(lambda: served.metric("registryd_uploads") == before + LASTING + PASSING), served.metric("registryd_uploads")
        yield [answer["Location"] for answer in opened]
    finally:
        for line in lines:
            line.close()


def took(ask):
    """Returns the result of a call, and its duration in seconds."""
    begun = time.time()
    answer = ask()
    return answer, time.time() - begun


def until(holds, seconds=60):
    """Waits until `holds()` is true. Returns whether it became true in time. Other tests may run at the same time."""
    end = time.time() + seconds
    while time.time() < end:
        if holds():
            return True
        time.sleep(0.02)
    return False


def play(name, tests):
    """Runs tests, each a function or a tuple of a function and its arguments, and ends the program."""
    begun, wrong = time.time(), 0
    for test in tests:
        test, *given = test if isinstance(test, tuple) else (test,)
        try:
            test(*given)
        except Exception as error:
            print(f"WRONG {test.__name__}: {type(error).__name__}: {error}")
            wrong += 1
    print(f"{name}: {len(tests) - wrong} passed, {wrong} failed, {time.time() - begun:.0f} s")
    sys.exit(wrong > 0)
