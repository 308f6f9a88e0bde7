#!/usr/bin/env python3
"""Tests rules that let tags go (--retention): what they keep, what they remove and why, `registryd retention --dry-run`, pulls, pushes at the
same moment, thousands of tags, SIGHUP, kills, clocks, and earlier databases."""
import concurrent.futures, contextlib, json, os, shlex, socket, subprocess, sys, tempfile, time

from documented import blocks
from hardships import played
from immutable import digest_of, images_of, put
from limits import users
from playing import until
from pushing import tags
from referrers import descriptor, index
from restarts import before_version_3, by_kill_of_both, by_signal, database, folder
from rights import write
from server import INDEX, REGISTRYD, serving, sha256
from statuses import check, ended

AGAIN = "read the retention rules again"
REMOVED = "registryd_retention_removed_tags_total"
OLD = 1_000_000


@contextlib.contextmanager
def serving_rules(*rules, words=()):
    """Starts a registry with rules and a socket. Returns it, the file of the rules, and the socket."""
    with users(*rules) as file, tempfile.TemporaryDirectory() as top:
        control = f"{top}/control"
        with serving("--retention", file, "--control", control, *words) as server:
            yield server, file, control


def command(control, *words, **options):
    """Calls a command, and returns its status, its output and its messages."""
    done = subprocess.run([REGISTRYD, *words, "--control", control], stdout=subprocess.PIPE, stderr=subprocess.PIPE, text=True, timeout=120, **options)
    return done.returncode, done.stdout, done.stderr


def dry_run(control, *words):
    """Returns what a dry run prints: the tags by their names, and the numbers of the last line."""
    status, out, err = command(control, "retention", "--dry-run", "--json", *words)
    assert status == 0, err
    lines = [json.loads(line) for line in out.splitlines()]
    return {f"{line['repository']}:{line['tag']}": line for line in lines[:-1]}, lines[-1]


def age(path, repo="acme/app", **ages):
    """Makes tags of a database older, by seconds, and all pulls known."""
    with database(path) as rows:
        for tag, seconds in ages.items():
            rows.execute("UPDATE tags SET pushed = pushed - ?, pulled = max(pulled - ?, 0) WHERE repository = ? AND tag = ?", (seconds, seconds, repo, tag))
        rows.execute("INSERT OR REPLACE INTO settings (name, value) VALUES ('pulls_since', 1)")


def a_dry_run_says_what_goes_and_why():
    """The numbers of the last ones, the ages and the reasons, before rules hold."""
    with folder() as path:
        with serving("--data", path) as server:
            client = server.client()
            contents = images_of(client, "acme/app", 4)
            for tag, content in zip(("v1", "v2", "v3", "latest", "dev"), (*contents, contents[0])):
                assert put(client, "acme/app", tag, content).status == 201
            assert put(client, "acme/app", "all", index(descriptor(contents[1])), INDEX).status == 201
            assert server.end() == 0
        age(path, v1=9 * OLD, v2=5 * OLD, v3=2 * OLD, latest=OLD, all=9 * OLD)
        with users("acme/app v* last=1", "acme/app * pushed=11d", "other * last=1") as rules, serving("--data", path, "--control", f"{path}/control") as server:
            found, end = dry_run(f"{path}/control", "--rules", rules)
            assert list(found) == ["acme/app:all", "acme/app:latest", "acme/app:v1", "acme/app:v2"], found
            assert (end["leaving"], end["tags"], end["rules"], end["pulls"]) == (4, 6, 3, None), end
            v1, latest = found["acme/app:v1"], found["acme/app:latest"]
            assert v1["why"] == ["line 1 (acme/app v* last=1): 1 or more tags are newer, pushed 104d ago", "line 2 (acme/app * pushed=11d): pushed 104d ago"], v1
            assert (v1["rule"], v1["digest"], v1["pulled"], v1["held_by_tag"]) == ("acme/app v* last=1", sha256(contents[0]), None, "dev"), v1
            assert found["acme/app:v2"]["held_by_manifest"] == sha256(index(descriptor(contents[1]))), found["acme/app:v2"]
            assert latest["held_by_tag"] is latest["held_by_manifest"] is None and not latest["manifest_goes"], latest
            assert abs(time.time() - OLD - latest["pushed"]) < 60, latest
            status, out, err = command(f"{path}/control", "retention", "--dry-run", "--rules", rules)
            assert status == 0 and not err and out.startswith("acme/app:all sha256:") and "4 of 6 tags would go\n" in out, (out, err)
            assert f"acme/app:v1 {sha256(contents[0])}\n    line 1 (acme/app v* last=1): 1 or more" in out and "the tag dev names it" in out, out
            # Pulls are not counted: a rule about them keeps all.
            write(rules, "* * pulled=1s")
            assert dry_run(f"{path}/control", "--rules", rules)[0] == {}
            status, _, err = command(f"{path}/control", "retention", "--dry-run")
            assert status == 1 and "no rules hold" in err, err
            for line, why in (("acme", "line 2: not PREFIX PATTERN"), ("* *", "line 2: no condition"), ("* * last=0", "line 2: not a condition")):
                write(rules, "# rules", line)
                status, out, err = command(f"{path}/control", "retention", "--dry-run", "--rules", rules)
                assert (status, out) == (1, "") and err.startswith(f"registryd: {why}"), err
            # Nothing was removed.
            assert tags(server.client(), "acme/app") == ["all", "dev", "latest", "v1", "v2", "v3"]


def rules_remove_tags_and_nothing_that_is_held():
    """The manifests of the tags go by --keep-untagged, if no index, no subject and no tag holds them."""
    with users("acme/app keep", "acme/app v9") as immutable, serving_rules(
            "acme/app * pushed=2s", "acme/app stays-* last=100", words=("--keep-untagged", str(1 / 3600), "--immutable-tags", immutable)) as (server, _, control):
        client = server.client()
        # They refer to no blobs, which would go too.
        free, listed, signed, kept, held = (index(annotations={"n": str(number)}) for number in range(5))
        signature = index(subject=descriptor(signed, INDEX))
        assert put(client, "acme/app", "keep", index(descriptor(listed, INDEX)), INDEX).status == 201
        for tag, content in (("free", free), ("listed", listed), ("stays-1", kept), ("kept", kept), ("stays-2", signed), ("signature", signature),
                             (sha256(kept).replace(":", "-") + ".sig", held), ("v9", held)):
            assert put(client, "acme/app", tag, content, INDEX).status == 201, tag
        left = lambda: tags(client, "acme/app")
        expected = ["keep", sha256(kept).replace(":", "-") + ".sig", "stays-1", "stays-2", "v9"]
        assert until(lambda: left() == expected), left()
        assert until(lambda: digest_of(client, "acme/app", sha256(free)) == 404)
        time.sleep(2.5)
        for content in (listed, signed, kept, held, signature):
            assert digest_of(client, "acme/app", sha256(content)) == sha256(content)
        assert left() == expected and server.metric(REMOVED + '{rule="acme/app * pushed=2s"}') == 4
        for tag in ("free", "listed", "kept", "signature"):
            server.wait_for(f'removed a tag by a rule repo="acme/app" tag={tag} digest=sha256:[0-9a-f]* why=line 1 .acme/app . pushed=2s.: pushed [234]s ago')
        assert json.loads(client.ask("GET", "/status").body)["retention"] == {"rules": 2}
        # The subject of the name goes, and then what belongs to it.
        assert client.ask("DELETE", f"/v2/acme/app/manifests/{sha256(kept)}").status == 202
        assert until(lambda: left() == ["keep", "stays-2", "v9"]), left()


def pulls_keep_tags():
    """A GET and a HEAD by a tag count, one by a digest does not. They survive a kill some seconds later, and a normal end at once."""
    with folder() as path, users() as rules:
        names = ["get", "head", "condition", "digest", "never", "late"]
        with serving("--data", path, "--retention", rules) as server:
            contents = images_of(server.client(), "acme/app", len(names))
            for name, content in zip(names, contents):
                assert put(server.client(), "acme/app", name, content).status == 201
            assert server.end() == 0
        age(path, **{name: OLD for name in names})
        for way in (by_kill_of_both, by_signal):
            with serving("--data", path, "--retention", rules) as server:
                client = server.client()
                ask = lambda method, reference, **headers: client.ask(method, f"/v2/acme/app/manifests/{reference}", None, headers).status
                assert ask("GET", "get") == ask("HEAD", "head") == ask("GET", sha256(contents[3])) == 200
                assert ask("GET", "condition", **{"If-None-Match": f'"{sha256(contents[2])}"'}) == 304
                assert ask("GET", "never", **{"If-Match": '"sha256:0"'}) == 412
                if way == by_kill_of_both:
                    time.sleep(4)
                else:
                    assert ask("HEAD", "late") == 200
                way(server)
            if way == by_kill_of_both:
                with database(path) as rows:
                    pulled = [tag for tag, in rows.execute("SELECT tag FROM tags WHERE pulled > 0 ORDER BY tag")]
                assert pulled == ["condition", "get", "head"], pulled
        write(rules, "acme/app * pulled=1h")
        with serving("--data", path, "--retention", rules) as server:
            expected = ["condition", "get", "head", "late"]
            assert until(lambda: tags(server.client(), "acme/app") == expected), tags(server.client(), "acme/app")
            assert server.end() == 0
        # Pulls are not counted without the option, so that all before the next start with it may have been at any time.
        with serving("--data", path) as server:
            assert server.end() == 0
        with database(path) as rows:
            rows.execute("UPDATE tags SET pushed = pushed - ?, pulled = 0", [OLD])
        with serving("--data", path, "--retention", rules, "--control", f"{path}/control") as server:
            found, end = dry_run(f"{path}/control")
            assert found == {} and abs(end["pulls"] - time.time()) < 60, (found, end)


def a_wrong_file_changes_nothing():
    with users("# rules", "acme * last=1", "acme v1") as file:
        check(ended("--retention", file), 1, f"cannot read the retention rules: {file}: line 3: no condition")
        check(ended("--retention", f"{file}.none"), 1, f"cannot read the retention rules: {file}.none: No such file")
    with serving_rules("acme none-* pushed=1s") as (server, file, control):
        client = server.client()
        one, = images_of(client, "acme/app", 1)
        for tag in ("v1", "v2"):
            assert put(client, "acme/app", tag, one).status == 201
        for line, why in (("* *", "no condition"), ("* * pushed=1s last", "not a condition"), ("acme/ v1 last=1", "not the name of a repository"),
                          ("* [a] last=1", "not a pattern of tags"), ("* * pushed=1s pushed=1s", "a condition is there twice")):
            write(file, "* v* pushed=1s", line)
            server.reload(f"{file}: line 2: {why}.*: kept the retention rules")
        time.sleep(3)
        assert tags(client, "acme/app") == ["v1", "v2"] and dry_run(control)[1]["rules"] == 1
        write(file, "* v1 pushed=1s")
        server.reload(AGAIN)
        assert until(lambda: tags(client, "acme/app") == ["v2"]), tags(client, "acme/app")


def a_tag_that_is_pushed_stays():
    """Rules match all tags, and let them go after a second. Tags are pushed again and again, and are there for a second each time."""
    with serving_rules("* * pushed=1s") as (server, _, _):
        client = server.client()
        one, two = images_of(client, "acme/app", 2)
        seen, end = [], time.time() + 8
        def pushes(number):
            client = server.client()
            for turn in range(1000):
                begun = time.time()
                content = (one, two)[turn % 2]
                assert put(client, "acme/app", f"v{number}", content).status == 201
                while time.time() < begun + 0.9:
                    named = digest_of(client, "acme/app", f"v{number}")
                    if time.time() < begun + 1:
                        seen.append((number, turn, named == sha256(content)))
                    time.sleep(0.02)
                time.sleep(number % 4 * 0.1)
                if time.time() > end:
                    return
        with concurrent.futures.ThreadPoolExecutor(4) as pool:
            for done in [pool.submit(pushes, number) for number in range(4)]:
                done.result()
        wrong = [one for one in seen if not one[2]]
        assert len(seen) > 20 and not wrong, (len(seen), wrong[:5])
        assert until(lambda: tags(client, "acme/app") == []), tags(client, "acme/app")
        # A client pushes and pulls as if there had never been a tag.
        assert put(client, "acme/app", "v0", one).status == 201 and digest_of(client, "acme/app", "v0") == sha256(one)


def many(path, count, content):
    """Adds tags of a manifest to a database, each a second younger than the one before."""
    with database(path) as rows:
        now = rows.execute("SELECT value FROM settings WHERE name = 'time'").fetchone()[0]
        every = ((f"t{number:05}", sha256(content), now - OLD + number) for number in range(count))
        rows.executemany("INSERT INTO tags (repository, tag, digest, pushed) VALUES ('acme/app', ?, ?, ?)", every)


def many_tags_go_at_a_pace(count=2000, most=0.5):
    """Clients push and pull meanwhile. Both programs are killed in the middle. What stays is exact."""
    with folder() as path, users("acme/app t* last=50") as rules:
        with serving("--data", path) as server:
            one, = images_of(server.client(), "acme/app", 1)
            assert put(server.client(), "acme/app", "latest", one).status == 201
            assert server.end() == 0
        many(path, count, one)
        expected = [f"t{number:05}" for number in range(count - 50, count)]
        count_of = lambda server: int(json.loads(server.client().ask("GET", "/status").body)["tenants"][0]["tags"])
        with serving("--data", path, "--retention", rules) as server:
            assert until(lambda: count_of(server) < count - 200)
            by_kill_of_both(server)
        with database(path) as rows:
            left = [tag for tag, in rows.execute("SELECT tag FROM tags WHERE tag GLOB 't*' ORDER BY tag")]
        assert 50 < len(left) < count and left[-50:] == expected, len(left)
        with serving("--data", path, "--retention", rules) as server:
            client, begun, times = server.client(), time.time(), []
            while count_of(server) > 51:
                for ask in (lambda: put(client, "acme/app", "latest", one).status == 201, lambda: digest_of(client, "acme/app", "latest") == sha256(one)):
                    at = time.time()
                    assert ask()
                    times.append(time.time() - at)
            took = time.time() - begun
            assert tags(client, "acme/app") == ["latest", *expected]
            assert server.metric(REMOVED + '{rule="acme/app t* last=50"}') == len(left) - 50
            times.sort()
            print(f"tag rules: {len(left) - 50} tags went in {took:.1f} s; a client's pushes and pulls took {times[len(times) // 2] * 1000:.1f} ms (median), "
                  f"{times[-1 - len(times) // 100] * 1000:.1f} ms (99th percentile), {times[-1] * 1000:.1f} ms (maximum)")
            assert times[len(times) // 2] < most, times[-5:]


def a_clock_that_jumps_removes_nothing():
    """All times that were recorded are a year old, as if the clock of this start were a year ahead, or as if it had been behind before."""
    year = 365 * 24 * 3600
    for shift in (year, -year):
        with folder() as path, users("* * pushed=1h pulled=1h") as rules:
            with serving("--data", path, "--retention", rules) as server:
                one, = images_of(server.client(), "acme/app", 1)
                assert put(server.client(), "acme/app", "v1", one).status == 201
                assert server.end() == 0
            with database(path) as rows:
                rows.execute("UPDATE settings SET value = value - ? WHERE name IN ('time', 'pulls_since')", [shift])
                rows.execute("UPDATE tags SET pushed = pushed - ?", [shift])
            with serving("--data", path, "--retention", rules, "--control", f"{path}/control") as server:
                time.sleep(2.5)
                assert tags(server.client(), "acme/app") == ["v1"] and dry_run(f"{path}/control")[1]["leaving"] == 0


def an_earlier_database_is_taken_over():
    """A tag of version 2 is as old as its manifest, at least."""
    with folder() as path, users("acme/app * pushed=30d") as rules:
        with serving("--data", path) as server:
            old, new = images_of(server.client(), "acme/app", 2)
            for tag, content in (("old", old), ("new", new)):
                assert put(server.client(), "acme/app", tag, content).status == 201
            assert server.end() == 0
        with database(path) as rows:
            before_version_3(rows)
            rows.execute("UPDATE manifests SET since = since - ? WHERE digest = ?", (3_000_000, sha256(old)))
            rows.execute("PRAGMA user_version = 2")
        with serving("--data", path, "--retention", rules) as server:
            assert until(lambda: tags(server.client(), "acme/app") == ["new"]), tags(server.client(), "acme/app")
            assert server.end() == 0
        with serving("--data", path) as server:
            assert tags(server.client(), "acme/app") == ["new"]


def the_socket_is_its_owners():
    with serving_rules("* * last=1") as (server, _, control):
        assert os.stat(control).st_mode & 0o7777 == 0o600
        check(ended("--control", control), 1, f"cannot listen for commands: {control}: another program listens on it")
        with tempfile.NamedTemporaryFile() as other:
            check(ended("--control", other.name), 1, f"cannot listen for commands: {other.name}: it exists and is not a socket")
            assert os.path.exists(other.name)
        check(ended("--control", f"{control}/below"), 1, "cannot listen for commands")
        if os.geteuid() == 0:
            top = os.path.dirname(control)
            os.chmod(top, 0o711)
            nobody = dict(user=65534, group=65534, extra_groups=[])
            status, _, err = command(control, "retention", "--dry-run", **nobody)
            assert status == 1 and "Permission denied" in err, err
            # Also if the file was opened to others.
            os.chmod(control, 0o666)
            status, _, err = command(control, "retention", "--dry-run", **nobody)
            assert status == 1 and "cannot reach the registry" in err, err
            assert "refused a command of another user" in server.logged()
        assert dry_run(control)[1]["leaving"] == 0
        server.process.kill()
        server.process.wait()
        status, _, err = command(control, "retention", "--dry-run")
        assert status == 1 and f"cannot reach the registry: {control}: Connection refused" in err, err
        # What a killed program left is replaced, and a normal end leaves nothing.
        with serving("--control", control) as next_one:
            assert command(control, "retention", "--dry-run")[0] == 1 and next_one.end() == 0
        assert not os.path.exists(control)


def the_page_has_rules_and_a_command():
    with tempfile.TemporaryDirectory() as top, serving("--control", f"{top}/control"):
        with open(f"{top}/new-rules", "w") as file:
            file.write(blocks("docs/SERVING.md", "Tags that rules let go", "text")[0])
        words = shlex.split(blocks("docs/SERVING.md", "Tags that rules let go")[0], comments=True)
        status, out, err = command(f"{top}/control", *words[1:], cwd=top)
        assert (words[0], status) == ("registryd", 0) and out.startswith("0 of 0 tags would go\n"), (words, out, err)


def hostile_clients_of_the_socket():
    """Those of the owner that send nothing, or too much, or read nothing, do not keep others out."""
    with serving_rules("* * last=1") as (server, _, control):
        silent = [socket.socket(socket.AF_UNIX) for _ in range(7)]
        for line in silent:
            line.connect(control)
        assert dry_run(control)[1]["tags"] == 0
        with tempfile.NamedTemporaryFile("w") as rules:
            rules.write("* * last=1\n" * 100_000)
            rules.flush()
            status, _, err = command(control, "retention", "--dry-run", "--rules", rules.name)
            assert status == 1 and ("longer than 1 MiB" in err or "cannot reach" in err), err
        for text in (b"GET / HTTP/1.1\r\nHost: x\r\n\r\n", b"DELETE /robots/ HTTP/1.1\r\nHost: x\r\n\r\n", b"PUT /robots HTTP/1.1\r\nHost: x\r\n\r\n"):
            with socket.socket(socket.AF_UNIX) as line:
                line.connect(control)
                line.sendall(text)
                assert line.recv(100).startswith(b"HTTP/1.1 404 "), text
        assert dry_run(control)[1]["tags"] == 0
        for line in silent:
            line.close()


TESTS = [a_dry_run_says_what_goes_and_why, rules_remove_tags_and_nothing_that_is_held, pulls_keep_tags, a_wrong_file_changes_nothing,
         a_tag_that_is_pushed_stays, many_tags_go_at_a_pace, a_clock_that_jumps_removes_nothing, an_earlier_database_is_taken_over,
         the_socket_is_its_owners, the_page_has_rules_and_a_command, hostile_clients_of_the_socket]


def main():
    names = sys.argv[1:]
    tests = [test for test in TESTS if not names or test.__name__ in names]
    # Most of them wait most of the time.
    with concurrent.futures.ThreadPoolExecutor(len(tests)) as pool:
        wrong = sum(pool.map(played, tests))
    print(f"tag rules: {len(tests) - wrong} passed, {wrong} failed")
    sys.exit(wrong > 0)


if __name__ == "__main__":
    main()
