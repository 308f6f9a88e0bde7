#!/usr/bin/env python3
"""Tests events: their fields, also compared with those of Debian's docker-registry if it is installed, their order, and that each arrives at
least once while receivers are down, slow or fail, and registries are killed; full queues; files of receivers that are read again; TLS."""
import concurrent.futures, contextlib, datetime, http.client, json, os, random, shutil, subprocess, sys, tempfile, threading, time, uuid

from hardships import played
from limits import CHEAP, basic, users
from playing import until
from receivers import TYPE, Receiver, brief, receivers_file, unique, write_receivers
from restarts import PATCH, before_version_3, by_kill_of_both, by_signal, database, folder, push, pushed
from retention import KEEP
from server import MANIFEST, Client, free_port, manifest_of, serving, sha256
from statuses import check, ended

ACCEPT = {"Accept": MANIFEST}
AGAIN = "read the receivers of events again"


@contextlib.contextmanager
def reporting(receiver, *words, entry=None, **options):
    """Starts a registry that sends its events to a receiver."""
    with receivers_file(entry or receiver.entry()) as file, serving("--events", file, *words, **options) as server:
        yield server


def delivered(server, count, name="one"):
    """Waits until a receiver has accepted a number of events."""
    assert until(lambda: server.metric(f'registryd_events_delivered_total{{receiver="{name}"}}') >= count), server.logged()[-2000:]


def metric(server, name, receiver="one"):
    return server.metric(f'registryd_{name}{{receiver="{receiver}"}}')


def put(client, repo, reference, content):
    answer = client.ask("PUT", f"/v2/{repo}/manifests/{reference}", content, {"Content-Type": MANIFEST})
    assert answer.status == 201, (answer.status, answer.body)
    return sha256(content)


def delete(client, repo, kind, reference):
    assert client.ask("DELETE", f"/v2/{repo}/{kind}/{reference}").status == 202, reference


def in_two_requests(client, repo, data):
    """Pushes a blob as clients of Distribution do."""
    location = client.ask("POST", f"/v2/{repo}/blobs/uploads/")["Location"]
    location = location[location.index("/v2/"):]
    answer = client.ask("PUT", f"{location}{'&' if '?' in location else '?'}digest={sha256(data)}", data, PATCH)
    assert answer.status == 201, (answer.status, answer.body)


def everything(client):
    """Makes each kind of request that has an event, and some that have none. Returns how many events there are."""
    layer = b"layer"
    image = manifest_of(b"{}", [layer])
    digest, blob = sha256(image), sha256(layer)
    for data in (b"{}", layer):
        in_two_requests(client, "acme/a", data)
    for reference in ("v1", digest, "v2"):
        put(client, "acme/a", reference, image)
    for method in ("HEAD", "GET"):
        for path in ("manifests/v1", f"manifests/{digest}", f"blobs/{blob}"):
            assert client.ask(method, f"/v2/acme/a/{path}", None, ACCEPT).status == 200, path
    assert client.ask("GET", f"/v2/acme/a/blobs/{blob}", None, {"Range": "bytes=1-2"}).status == 206
    assert client.ask("GET", "/v2/acme/a/manifests/v1", None, {**ACCEPT, "If-None-Match": f'"{digest}"'}).status == 304
    assert client.ask("GET", "/v2/acme/a/manifests/v3", None, ACCEPT).status == 404
    assert client.ask("GET", "/v2/acme/a/tags/list").status == 200
    assert client.ask("POST", f"/v2/acme/b/blobs/uploads/?mount={blob}&from=acme/a").status == 201
    delete(client, "acme/b", "blobs", blob)
    delete(client, "acme/a", "manifests", digest)
    return 2 + 3 + 6 + 1 + 1 + 1 + 3


def without_own(events):
    """Returns events without ids, times and addresses, after checking these."""
    found = []
    for event in json.loads(json.dumps(events)):
        uuid.UUID(event["id"])
        uuid.UUID(event["request"]["id"])
        uuid.UUID(event["source"]["instanceID"])
        time_of = datetime.datetime.fromisoformat(event["timestamp"][:19])
        assert event["timestamp"].endswith("Z") and abs(time_of - datetime.datetime.utcnow()) < datetime.timedelta(minutes=5), event
        port = event["request"]["host"].split(":")[1]
        assert event["source"]["addr"].endswith(f":{port}") and event["request"]["addr"].startswith("127.0.0.1:"), event
        if "url" in event["target"]:
            base = f"http://127.0.0.1:{port}/v2/"
            assert event["target"]["url"].startswith(base), event
            event["target"]["url"] = event["target"]["url"][len(base):]
        for part, name in ((event, "id"), (event, "timestamp"), (event["request"], "id"), (event["request"], "addr"),
                           (event["request"], "host"), (event["source"], "addr"), (event["source"], "instanceID")):
            part[name] = type(part[name]).__name__
        found.append(event)
    return found


def fields_are_those_of_the_documentation():
    agent = {"User-Agent": "agent/" + "1" * 300}
    with Receiver().begin() as receiver, users(f"acme:{CHEAP}") as file, reporting(receiver, "--htpasswd", file) as server:
        client = server.client({**agent, **basic("acme:secret")})
        count = everything(client)
        events = receiver.has(count)
        time.sleep(0.3)
        assert len(receiver.events) == count, [brief(event) for event in receiver.events]
        path, headers, content = receiver.requests[0]
        assert (path, headers["Content-Type"]) == ("/events?key=QUERYSECRET", TYPE), (path, headers)
        assert headers["Host"] == f"127.0.0.1:{receiver.port}" and headers["User-Agent"].startswith("registryd/")
        # No server of Distribution made this one: it is written by its documentation.
        image = manifest_of(b"{}", [b"layer"])
        assert without_own(events)[2] == {
            "id": "str", "timestamp": "str", "action": "push",
            "target": {"mediaType": MANIFEST, "size": len(image), "digest": sha256(image), "length": len(image), "repository": "acme/a",
                       "url": f"acme/a/manifests/{sha256(image)}", "tag": "v1"},
            "request": {"id": "str", "addr": "str", "host": "str", "method": "PUT", "useragent": "agent/" + "1" * 250 + "... (306 bytes)"},
            "actor": {"name": "acme"}, "source": {"addr": "str", "instanceID": "str"}}
        assert client.ask("GET", "/v2/other/a/manifests/v1", None, basic("acme:secret")).status == 403
        answer = client.ask("POST", "/v2/acme/a/blobs/uploads/?digest=" + sha256(b"other"), b"other", PATCH)
        assert answer.status == 201
        delete(client, "acme/a", "blobs", sha256(b"other"))
        put(client, "acme/a", "v9", image)
        delete(client, "acme/a", "manifests", "v9")
        more = [brief(event) for event in receiver.has(count + 4)[count:]]
        assert more == [("push", "acme/a", sha256(b"other")), ("delete", "acme/a", sha256(b"other")), ("push", "acme/a", "v9"),
                        ("delete", "acme/a", "v9")], more
        tag = receiver.events[-1]["target"]
        assert tag == {"repository": "acme/a", "tag": "v9"}, tag


@contextlib.contextmanager
def distribution(receiver):
    """Starts Debian's docker-registry with a receiver. Returns its address."""
    address = f"127.0.0.1:{free_port()}"
    with tempfile.TemporaryDirectory() as top:
        with open(f"{top}/config.yml", "w") as file:
            json.dump({"version": 0.1, "storage": {"filesystem": {"rootdirectory": f"{top}/data"}, "delete": {"enabled": True}},
                       "http": {"addr": address}, "log": {"level": "error"},
                       "notifications": {"endpoints": [{**receiver.entry(), "timeout": "5s", "threshold": 3, "backoff": "1s"}]}}, file)
        process = subprocess.Popen(["docker-registry", "serve", f"{top}/config.yml"], stdout=subprocess.DEVNULL, stderr=subprocess.DEVNULL)
        def serves():
            with contextlib.suppress(OSError):
                return Client(address).ask("GET", "/v2/").status == 200
        try:
            assert until(serves), process.poll()
            yield address
        finally:
            process.kill()
            process.wait()


def fields_are_those_of_docker_registry():
    if not shutil.which("docker-registry"):
        print("events: left out: a comparison (no docker-registry)")
        return
    found = []
    with Receiver().begin() as receiver, distribution(receiver) as address:
        count = everything(Client(address, {"User-Agent": "test"}))
        found.append(without_own(receiver.has(count)))
    with Receiver().begin() as receiver, reporting(receiver) as server:
        count = everything(server.client({"User-Agent": "test"}))
        found.append(without_own(receiver.has(count)))
    # docker-registry deletes tags in no order.
    theirs, ours = ([json.dumps(event, sort_keys=True) for event in events] for events in found)
    assert theirs[:-2] == ours[:-2] and sorted(theirs[-2:]) == sorted(ours[-2:]), [pair for pair in zip(theirs, ours) if pair[0] != pair[1]]


def tags_in_order(client, repo, count):
    """Pushes an image under a number of tags, and returns them."""
    image = pushed(client, repo, "t0")
    for number in range(1, count):
        put(client, repo, f"t{number}", image)
    return [f"t{number}" for number in range(count)]


def tags_of(events, repo):
    return [event["target"]["tag"] for event in unique(events) if event["target"]["repository"] == repo and "tag" in event["target"]]


def delivered_in_order_after(faults):
    with Receiver().begin() as receiver:
        receiver.faults = list(faults)
        with reporting(receiver, entry=receiver.entry(timeout_s=1)) as server:
            tags = tags_in_order(server.client(), "acme/app", 20)
            delivered(server, 22)
            assert tags_of(receiver.events, "acme/app") == tags, (faults, [brief(event) for event in receiver.events])
            assert metric(server, "event_failures_total") >= len(faults) and metric(server, "events_dropped_total") == 0
            assert metric(server, "events_waiting") == 0 and metric(server, "oldest_event_seconds") == 0
            assert "cannot deliver events: trying again receiver=one" in server.logged() and "delivers events again" in server.logged()


def receivers_with_faults():
    """Each event arrives, in order, whatever the receiver does at first."""
    with concurrent.futures.ThreadPoolExecutor(4) as pool:
        list(pool.map(delivered_in_order_after, ([500, 404, 302], ["cut", "half", "cut"], [2.0, 2.0], [413] * 3)))


def a_receiver_that_is_down():
    for words in ((), ("--data",)):
        with Receiver() as receiver, folder() as path, reporting(receiver, *words, *([path] if words else [])) as server:
            tags = tags_in_order(server.client(), "acme/app", 5)
            assert until(lambda: metric(server, "event_failures_total") > 0)
            assert until(lambda: metric(server, "events_waiting") == 7)  # A push is answered before its event waits.
            status = json.loads(server.client().ask("GET", "/status").body)["events"]
            assert status["bound"] == 10000 and status["receivers"][0]["fails"] and status["receivers"][0]["waiting"] == 7, status
            time.sleep(1.1)
            assert metric(server, "oldest_event_seconds") >= 1
            receiver.begin()
            assert tags_of(receiver.has(7), "acme/app") == tags
            assert len(receiver.events) == 7, "an event came twice without a fault"


def a_kill_loses_no_event():
    """Clients push, move and delete tags while the programs are killed. The events of what was acknowledged come after the restart, those of
    a tag in their order."""
    acknowledged, lock, random_times = [], threading.Lock(), random.Random(5)
    with Receiver() as receiver, folder() as path:
        for number in range(4):
            receiver.fault = 500 if number % 2 else 200
            if number == 1:
                receiver.begin()
            with reporting(receiver, "--data", path) as server:
                images = [pushed(server.client(), "acme/app", f"base{number}", b"layer %d" % layer) for layer in range(2)]
                def work(name):
                    with contextlib.suppress(OSError, http.client.HTTPException):
                        client = Client(server.address)
                        for step in range(1000):
                            tag = f"{name}-{number}-{step // 3}"
                            if step % 3 < 2:
                                kind = ("push", tag, sha256(images[step % 2]))
                                answer = client.ask_once("PUT", f"/v2/acme/app/manifests/{tag}", images[step % 2], {"Content-Type": MANIFEST})
                            else:
                                kind = ("delete", tag, None)
                                answer = client.ask_once("DELETE", f"/v2/acme/app/manifests/{tag}")
                            if answer.status in (201, 202):
                                with lock:
                                    acknowledged.append(kind)
                threads = [threading.Thread(target=work, args=(f"c{name}",)) for name in range(4)]
                for thread in threads:
                    thread.start()
                time.sleep(random_times.uniform(0.3, 0.8))
                by_kill_of_both(server)
                for thread in threads:
                    thread.join()
        receiver.fault = 200
        with reporting(receiver, "--data", path) as server:
            assert until(lambda: metric(server, "events_waiting") == 0), server.logged()[-1000:]
            by_signal(server)
        found = {}
        for event in unique(receiver.events):
            if event["target"].get("tag"):
                found.setdefault(event["target"]["tag"], []).append((event["action"], event["target"].get("digest")))
        assert len(acknowledged) > 20, len(acknowledged)
        for action, tag, digest in acknowledged:
            assert (action, digest) in found.get(tag, []), (action, tag)
        for tag, steps in found.items():
            if tag.startswith("c"):
                assert [action for action, _ in steps] == ["push", "push", "delete"][:len(steps)], (tag, steps)
                assert len({digest for _, digest in steps[:2]}) == len(steps[:2]), (tag, steps)
        with database(path) as rows:
            assert rows.execute("SELECT count(*) FROM events").fetchone()[0] == 0


def blobs_and_deletes_survive_a_kill():
    with Receiver() as receiver, folder() as path:
        with reporting(receiver, "--data", path) as server:
            client = server.client()
            image = pushed(client, "acme/app", "v1")
            push(client, "acme/app", b"other")
            delete(client, "acme/app", "blobs", sha256(b"other"))
            assert client.ask("POST", f"/v2/acme/b/blobs/uploads/?mount={sha256(b'layer')}&from=acme/app").status == 201
            delete(client, "acme/app", "manifests", sha256(image))
            by_kill_of_both(server)
        receiver.begin()
        with reporting(receiver, "--data", path) as server:
            expected = [("push", "acme/app", sha256(b"{}")), ("push", "acme/app", sha256(b"layer")), ("push", "acme/app", "v1"),
                        ("push", "acme/app", sha256(b"other")), ("delete", "acme/app", sha256(b"other")), ("mount", "acme/b", sha256(b"layer")),
                        ("delete", "acme/app", sha256(image)), ("delete", "acme/app", "v1")]
            assert [brief(event) for event in receiver.has(8)] == expected, receiver.events
            mount = receiver.events[5]["target"]
            assert (mount["fromRepository"], mount["length"]) == ("acme/app", 5), mount
            delivered(server, 8)
            time.sleep(1.5)
            by_kill_of_both(server)
        # What was delivered a second before a kill is not delivered again.
        with reporting(receiver, "--data", path) as server:
            push(server.client(), "acme/app", b"more")
            assert len(receiver.has(9)) == 9, [brief(event) for event in receiver.events]


def a_dead_receiver_holds_up_nobody():
    with Receiver("dead") as dead, Receiver("slow").begin() as slow, Receiver("good").begin() as good:
        slow.fault = 0.5
        with receivers_file(dead.entry(), slow.entry(), good.entry()) as file, serving("--events", file) as server:
            tags = tags_in_order(server.client(), "acme/app", 30)
            assert tags_of(good.has(32, 30), "acme/app") == tags
            assert tags_of(slow.has(32), "acme/app") == tags
            delivered(server, 32, "good")
            assert metric(server, "events_waiting", "dead") == 32 and metric(server, "events_waiting", "good") == 0


def a_full_queue_drops_its_oldest_events():
    with Receiver() as receiver, Receiver("good").begin() as good, folder() as path, receivers_file(receiver.entry(), good.entry()) as file:
        words = ("--events", file, "--event-queue", "5", "--data", path)
        with serving(*words) as server:
            client, tags = server.client(), [f"t{number}" for number in range(12)]
            image = pushed(client, "acme/app", "t0")
            for number, tag in enumerate(tags):
                # The other receiver must not lag behind so far that its queue is full.
                delivered(server, 3 + number - 1 if number else 3, "good")
                if number:
                    put(client, "acme/app", tag, image)
            assert until(lambda: metric(server, "events_dropped_total") == 9), metric(server, "events_dropped_total")
            assert metric(server, "events_waiting") == 5 and "dropped the oldest events: the queue is full receiver=one" in server.logged()
            delivered(server, 14, "good")
            assert tags_of(good.events, "acme/app") == tags and metric(server, "events_dropped_total", "good") == 0
            by_kill_of_both(server)
        with serving(*words) as server:
            receiver.begin()
            receiver.has(5)
            time.sleep(0.3)
            assert tags_of(receiver.events, "acme/app") == tags[-5:], receiver.events
    assert ended("--event-queue", "5")[0] == 2


def many_clients_at_once():
    """The events of 40 clients arrive in the order of each repository, while the receiver is slow."""
    with Receiver().begin() as receiver:
        receiver.fault = 0.05
        with folder() as path, reporting(receiver, "--data", path) as server:
            pushed(server.client(), "acme/r0", "base")
            def work(number):
                client, repo = server.client(), f"acme/r{number}"
                return repo, tags_in_order(client, repo, 15)
            with concurrent.futures.ThreadPoolExecutor(40) as pool:
                done = list(pool.map(work, range(40)))
            delivered(server, 3 + 40 * 17)
            for repo, tags in done:
                assert [tag for tag in tags_of(receiver.events, repo) if tag != "base"] == tags, repo
            assert max(len(json.loads(content)["events"]) for _, _, content in receiver.requests) > 1


def a_receiver_gets_what_it_wants():
    with Receiver("all").begin() as every, Receiver("manifests").begin() as some:
        entry = some.entry(ignore_actions=["pull"], ignore_media_types=["application/octet-stream"])
        with receivers_file(every.entry(), entry) as file, serving("--events", file) as server:
            count = everything(server.client())
            every.has(count)
            delivered(server, 7, "manifests")
            assert {event["action"] for event in some.events} == {"push", "delete"} and len(some.events) == 7, some.events
        with receivers_file(entry) as file, serving("--events", file) as server:
            everything(server.client())
            delivered(server, 7, "manifests")


def the_file_is_read_again():
    with Receiver("one").begin() as one, Receiver("two").begin() as two:
        secret = {"headers": {"Authorization": "Bearer HEADERSECRET"}}
        with receivers_file(one.entry(**secret)) as file, serving("--events", file) as server:
            client = server.client()
            push(client, "acme/app", b"1")
            one.has(1)
            assert one.requests[0][1]["Authorization"] == "Bearer HEADERSECRET"
            write_receivers(file, one.entry(**secret), two.entry())
            server.reload(AGAIN)
            push(client, "acme/app", b"2")
            assert [brief(event)[2] for event in two.has(1)] == [sha256(b"2")] and len(one.has(2)) == 2
            for text, why in (("{", "EOF while parsing"), ('{"receivers": [{"name": "x", "url": 5}]}', "a value of the wrong type at line 1"),
                              ('{"receivers": [{"name": "x", "url": "http://u:PASSWORDSECRET@h/"}]}', "receiver x: the URL has a user")):
                with open(file, "w") as other:
                    other.write(text)
                server.reload(f"cannot read the receivers of events: {file}: {why}.*: kept the receivers of events")
            two.end()
            push(client, "acme/app", b"3")
            one.has(3)
            write_receivers(file, one.entry(name="other"))
            server.reload(AGAIN)
            assert until(lambda: "not in the file of receivers any more" in server.logged())
            push(client, "acme/app", b"4")
            assert brief(one.has(4)[3])[2] == sha256(b"4")
            delivered(server, 1, "other")
            metrics = client.ask("GET", "/metrics").body.decode()
            assert 'receiver="two"' not in metrics and 'registryd_events_delivered_total{receiver="other"} 1' in metrics
            with open(f"/proc/{server.process.pid}/cmdline") as line:
                shown = server.logged() + client.ask("GET", "/status").body.decode() + metrics + line.read()
            assert "SECRET" not in shown, [line for line in shown.splitlines() if "SECRET" in line]
            write_receivers(file)
            server.reload(AGAIN)
            push(client, "acme/app", b"5")
            assert until(lambda: json.loads(client.ask("GET", "/status").body)["events"]["receivers"] == [])
    with users('{"receivers": [{"name": "x"}]}') as file:
        check(ended("--events", file), 1, f"cannot read the receivers of events: {file}: missing field `url`")
        check(ended("--events", f"{file}.none"), 1, "cannot read the receivers of events", "No such file")


def a_receiver_with_tls():
    with tempfile.TemporaryDirectory() as top:
        pair = f"{top}/a.crt", f"{top}/a.key"
        for number, name in enumerate(("DNS:localhost", "DNS:elsewhere")):
            subprocess.run(["openssl", "req", "-x509", "-newkey", "ec", "-pkeyopt", "ec_paramgen_curve:P-256", "-nodes", "-days", "9", "-subj",
                            "/CN=x", "-addext", f"subjectAltName={name}", "-addext", "basicConstraints=critical,CA:FALSE", "-out", pair[0],
                            "-keyout", pair[1]], check=True, stderr=subprocess.DEVNULL)
            with Receiver(certificate=pair).begin() as receiver, reporting(receiver, env={**os.environ, "SSL_CERT_FILE": pair[0]}) as server:
                push(server.client(), "acme/app", b"1")
                if number == 0:
                    receiver.has(1)
                else:
                    server.wait_for("cannot deliver events: trying again receiver=one why=no TLS handshake")
        # The system does not trust it.
        with Receiver(certificate=pair).begin() as receiver, reporting(receiver) as server:
            push(server.client(), "acme/app", b"1")
            server.wait_for("cannot deliver events: trying again receiver=one why=no TLS handshake")
        with receivers_file({"name": "x", "url": "https://localhost/"}) as file:
            check(ended("--events", file, env={**os.environ, "SSL_CERT_FILE": "/none"}), 1, "receiver x: cannot read the certificates")


def the_registry_s_own_deletes_are_reported():
    for words in ((), ("--data",)):
        with Receiver().begin() as receiver, folder() as path, reporting(receiver, *KEEP, *words, *([path] if words else [])) as server:
            client = server.client()
            image = pushed(client, "acme/app", sha256(manifest_of(b"{}", [b"layer"])))
            deletes = receiver.has(6)[3:]
            assert sorted(brief(event) for event in deletes) == sorted(("delete", "acme/app", sha256(data)) for data in (image, b"{}", b"layer"))
            for event in deletes:
                assert (event["request"], event["actor"]) == ({"id": "", "method": "", "useragent": ""}, {}), event


def tags_that_rules_remove_are_reported():
    with users("acme/app v* pushed=2s") as rules:
        for is_kept in (False, True):
            with Receiver().begin() as receiver, folder() as path:
                with reporting(receiver, "--retention", rules, *(("--data", path) if is_kept else ())) as server:
                    client = server.client()
                    put(client, "acme/app", "v2", pushed(client, "acme/app", "v1"))
                    deletes = receiver.has(6)[4:]
                    assert sorted(brief(event) for event in deletes) == [("delete", "acme/app", "v1"), ("delete", "acme/app", "v2")]
                    for event in deletes:
                        assert (event["request"], event["actor"]) == ({"id": "", "method": "", "useragent": ""}, {}), event
                        assert set(event["target"]) == {"repository", "tag"}, event


def without_a_folder_events_end_with_the_registry():
    with Receiver() as receiver, reporting(receiver) as server:
        push(server.client(), "acme/app", b"1")
        by_signal(server)
        assert "lost events: they were in memory alone receiver=one count=1" in server.logged(), server.logged()[-500:]


def a_start_without_the_file_keeps_the_events():
    with Receiver() as receiver, folder() as path:
        with reporting(receiver, "--data", path) as server:
            push(server.client(), "acme/app", b"1")
            by_signal(server)
        with serving("--data", path) as server:
            push(server.client(), "acme/app", b"2")
            assert json.loads(server.client().ask("GET", "/status").body)["events"] is None
            by_signal(server)
        receiver.begin()
        with reporting(receiver, "--data", path) as server:
            push(server.client(), "acme/app", b"3")
            assert [brief(event)[2] for event in receiver.has(2)] == [sha256(b"1"), sha256(b"3")]
            by_signal(server)
        with Receiver("new").begin() as new, reporting(new, "--data", path) as server:
            push(server.client(), "acme/app", b"4")
            assert [brief(event)[2] for event in new.has(1)] == [sha256(b"4")]


def a_database_of_version_2_is_taken_over():
    with Receiver().begin() as receiver, folder() as path:
        with serving("--data", path) as server:
            pushed(server.client(), "acme/app", "v1")
            by_signal(server)
        with database(path) as rows:
            before_version_3(rows)
            rows.execute("PRAGMA user_version = 2")
        for number in range(2):
            with reporting(receiver, "--data", path) as server:
                assert server.client().ask("HEAD", "/v2/acme/app/manifests/v1").status == 200
                assert [brief(event) for event in receiver.has(number + 1)] == [("pull", "acme/app", "v1")] * (number + 1)
                delivered(server, 1)
                by_signal(server)


TESTS = [fields_are_those_of_the_documentation, fields_are_those_of_docker_registry, receivers_with_faults, a_receiver_that_is_down,
         a_kill_loses_no_event, blobs_and_deletes_survive_a_kill, a_dead_receiver_holds_up_nobody, a_full_queue_drops_its_oldest_events,
         many_clients_at_once, a_receiver_gets_what_it_wants, the_file_is_read_again, a_receiver_with_tls,
         the_registry_s_own_deletes_are_reported, tags_that_rules_remove_are_reported, without_a_folder_events_end_with_the_registry,
         a_start_without_the_file_keeps_the_events, a_database_of_version_2_is_taken_over]


def main():
    names = sys.argv[1:]
    tests = [test for test in TESTS if not names or test.__name__ in names]
    wrong = sum(played(test) for test in tests)
    print(f"events: {len(tests) - wrong} passed, {wrong} failed")
    sys.exit(wrong > 0)


if __name__ == "__main__":
    main()
