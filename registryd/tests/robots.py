#!/usr/bin/env python3
"""Tests accounts of machines (`registryd robot`): their secrets, rights and ends, that one is refused as soon as it is revoked, restarts and
kills, names of users, and skopeo and docker."""
import concurrent.futures, contextlib, json, os, re, shlex, sys, tempfile, time

from clients import docker_with_a_file, run
from documented import blocks
from hardships import played
from images import image, same_blobs, skopeo
from limits import CHEAP, basic, users
from playing import until
from restarts import by_kill_of_both, by_signal, database, folder, push
from rights import fails, status
from server import MANIFEST, manifest_of, serving, sha256
from statuses import check, ended
from tag_rules import command


@contextlib.contextmanager
def serving_robots(*words, lines=(f"acme:{CHEAP}",)):
    """Starts a registry with users and a socket. Returns it and the socket."""
    with users(*lines) as file, tempfile.TemporaryDirectory() as top:
        with serving("--htpasswd", file, "--control", f"{top}/control", *words) as server:
            yield server, f"{top}/control"


def robot(control, *words):
    """Calls a command about robots, and returns its output."""
    status, out, err = command(control, "robot", *words)
    assert status == 0 and not err, err
    return out


def fault(control, *words):
    """Returns the message of a command that fails."""
    status, out, err = command(control, "robot", *words)
    assert status == 1 and not out and err.startswith("registryd: "), (status, out, err)
    return err


def add(control, name, *allow, end=("--days", "9")):
    """Makes a robot, and returns its secret."""
    words = [word for rights in allow for word in ("--allow", rights)]
    whole, secret = robot(control, "add", name, *words, *end).splitlines()
    assert whole == f"robot+{name}" and re.fullmatch("regd_[0-9a-f]{64}", secret), (whole, secret)
    return secret


def listed(control):
    """Returns the robots by their names."""
    return {one.pop("name"): one for one in json.loads(robot(control, "list", "--json"))["robots"]}


def may(server, name, secret):
    """Returns whether a robot is known."""
    found = status(server, name, password=secret)
    assert found in (200, 401), found
    return found == 200


def a_robot_has_its_rights():
    with users("* read acme/public") as rights, serving_robots("--rights", rights) as (server, control):
        secret = add(control, "ci", "read,write:acme/app", "read:other")
        assert may(server, "robot+ci", secret)
        client = server.client(basic(f"robot+ci:{secret}"))
        push(client, "acme/app/web", b"{}")
        manifest = manifest_of(b"{}", [])
        path = "/v2/acme/app/web/manifests/v1"
        assert client.ask("PUT", path, manifest, {"Content-Type": MANIFEST}).status == 201
        for method, path, expected in (("GET", path, 200), ("DELETE", path, 403), ("GET", "/v2/acme/apple/manifests/v1", 403), ("GET", "/v2/acme/tags/list", 403),
                                       ("GET", "/v2/other/x/manifests/v1", 404), ("POST", "/v2/other/x/blobs/uploads/", 403),
                                       ("GET", "/v2/acme/public/manifests/v1", 404), ("GET", "/metrics", 403)):
            answer = client.ask(method, path)
            assert answer.status == expected, (method, path, answer.status)
        assert "robot+ci does not have the right to write in other/x" in client.ask("POST", "/v2/other/x/blobs/uploads/").body.decode()
        assert json.loads(client.ask("GET", "/v2/_catalog").body) == {"repositories": ["acme/app/web"]}
        server.wait_for("path=\"/v2/acme/app/web/manifests/v1\" status=201 .*user=\"?robot.ci\"?")
        found = listed(control)
        assert list(found) == ["robot+ci"] and found["robot+ci"]["rights"] == ["read,write acme/app", "read other"], found
        assert found["robot+ci"]["state"] == "active" and abs(found["robot+ci"]["ends"] - time.time() - 9 * 86400) < 60, found
        out = robot(control, "list")
        assert re.fullmatch(r"robot\+ci\tactive\tends 20\d\d-\d\d-\d\d \d\d:\d\dZ\tread,write acme/app; read other\n", out), out
        # The secret is nowhere else.
        assert secret not in server.logged() and secret not in out and secret not in json.dumps(found)


def wrong_secrets_are_refused():
    with serving_robots() as (server, control):
        secret, other = add(control, "ci", "read:*"), add(control, "other", "read:*")
        wrong = [("robot+ci", other), ("robot+ci", ""), ("robot+ci", secret[:-1]), ("robot+ci", secret + "0"), ("robot+ci", secret.upper()),
                 ("robot+ci", sha256(secret.encode())[7:]), ("robot+cj", secret), ("ci", secret), ("robot+", secret), ("acme", secret), ("Robot+ci", secret)]
        for name, words in wrong:
            assert not may(server, name, words), (name, words)
        assert may(server, "robot+ci", secret) and may(server, "acme", "secret")
        # A flood of wrong secrets hashes no passwords.
        begun = time.time()
        with concurrent.futures.ThreadPoolExecutor(8) as pool:
            assert set(pool.map(lambda number: may(server, f"robot+x{number}", "wrong"), range(300))) == {False}
        assert may(server, "robot+ci", secret), time.time() - begun


def a_revoked_robot_is_refused_at_once():
    """Also on open connections, and during a flood of its requests."""
    with serving_robots() as (server, control):
        secret, kept = add(control, "ci", "read:*"), add(control, "kept", "read:*")
        client, other = (server.client(basic(f"{name}:{words}")) for name, words in (("robot+ci", secret), ("robot+kept", kept)))
        assert client.ask("GET", "/v2/").status == other.ask("GET", "/v2/").status == 200
        revoked, late = [], []
        def asks():
            asking = server.client(basic(f"robot+ci:{secret}"))
            for _ in range(200):
                begun = time.time()
                if asking.ask("GET", "/v2/").status == 200 and revoked:
                    late.append(begun - revoked[0])
        with concurrent.futures.ThreadPoolExecutor(4) as pool:
            asking = [pool.submit(asks) for _ in range(4)]
            assert robot(control, "revoke", "ci") == "revoked robot+ci\n"
            revoked.append(time.time())
            for done in asking:
                done.result()
        assert not [begun for begun in late if begun > 0], late
        assert client.ask("GET", "/v2/").status == 401 and other.ask("GET", "/v2/").status == 200
        assert list(listed(control)) == ["robot+kept"] and "there is no robot robot+ci" in fault(control, "revoke", "robot+ci")
        # Another one with the name has another secret.
        again = add(control, "ci", "read:*")
        assert may(server, "robot+ci", again) and not may(server, "robot+ci", secret)


def a_robot_ends():
    with folder() as path, users() as file:
        words = ("--data", path, "--htpasswd", file, "--control", f"{path}/control")
        with serving(*words) as server:
            secret = add(f"{path}/control", "ci", "read:*", end=("--until", "2099-12-31"))
            day = listed(f"{path}/control")["robot+ci"]["ends"]
            assert time.strftime("%Y-%m-%d %H:%M", time.gmtime(day)) == "2099-12-31 00:00"
            for end in (("--until", "2020-01-01"), ("--until", "1970-01-01")):
                assert "end in the past" in fault(f"{path}/control", "add", "past", "--allow", "read:*", *end)
            assert server.end() == 0
        with database(path) as rows:
            rows.execute("UPDATE robots SET ends = ?", [int(time.time()) + 12])
        with serving(*words) as server:
            client = server.client(basic(f"robot+ci:{secret}"))
            assert client.ask("GET", "/v2/").status == 200
            assert until(lambda: client.ask("GET", "/v2/").status == 401, 30)
            assert listed(f"{path}/control")["robot+ci"]["state"] == "ended"
            server.wait_for("refused a robot whose time has ended robot=robot.ci")
            robot(f"{path}/control", "revoke", "ci")


def robots_survive_restarts():
    """One that was revoked does not come back, whatever ends the programs. The database has no secret."""
    with folder() as path, users() as file:
        words = ("--data", path, "--htpasswd", file, "--control", f"{path}/control")
        secrets = {}
        for number, way in enumerate((by_signal, by_kill_of_both)):
            with serving(*words) as server:
                assert all(may(server, f"robot+{name}", secret) for name, secret in secrets.items()), secrets
                gone = add(f"{path}/control", f"gone{number}", "read:*")
                secrets[f"kept{number}"] = add(f"{path}/control", f"kept{number}", "read:acme")
                robot(f"{path}/control", "revoke", f"gone{number}")
                way(server)
            with serving(*words) as server:
                assert not may(server, f"robot+gone{number}", gone)
                assert list(listed(f"{path}/control")) == [f"robot+{name}" for name in secrets]
                assert server.end() == 0
        for name in (f"{at}/{name}" for at, _, names in os.walk(path) for name in names):
            with open(name, "rb") as kept:
                data = kept.read()
            assert not any(secret.encode() in data or bytes.fromhex(secret[5:]) in data for secret in secrets.values()), name
        # A damaged row makes no robot, and the others stay.
        with database(path) as rows:
            rows.execute("UPDATE robots SET rights = 'all' WHERE name = 'robot+kept0'")
        with serving(*words) as server:
            assert not may(server, "robot+kept0", secrets["kept0"]) and may(server, "robot+kept1", secrets["kept1"])
            assert "dropped a robot whose row in the database is damaged" in server.logged()


def what_is_no_robot_is_refused():
    with serving_robots() as (server, control):
        add(control, "ci", "read:*")
        assert "there is a robot robot+ci: revoke it first" in fault(control, "add", "robot+ci", "--allow", "read:*", "--days", "1")
        for name in ("Ci", "a b", "robot+robot+ci", "a/b", "..", "a:b", "a" * 65, "x-"):
            assert "not a name of a robot" in fault(control, "add", name, "--allow", "read:*", "--days", "1"), name
        for rights in ("reed:acme", "read:acme/", "read,:acme", ":acme", "read:"):
            assert "registryd: " in fault(control, "add", "x", "--allow", rights, "--days", "1"), rights
        for words in (("add", "x", "--days", "1"), ("add", "x", "--allow", "read:*"), ("add", "x", "--allow", "read", "--days", "1"),
                      ("add", "x", "--allow", "read:*", "--days", "0"), ("add", "x", "--allow", "read:*", "--until", "2027-02-30")):
            assert command(control, "robot", *words)[0] == 2, words
        assert list(listed(control)) == ["robot+ci"]
        for reference in ("x", "robot+", "%2e%2e/x"):
            assert "there is no robot" in fault(control, "revoke", reference)
    # Without users, requests need no credentials.
    with tempfile.TemporaryDirectory() as top, serving("--control", f"{top}/control"):
        assert "requests need no credentials here" in fault(f"{top}/control", "add", "ci", "--allow", "read:*", "--days", "1")


def names_of_users_are_none_of_robots():
    for line in (f"robot+ci:{CHEAP}", "robot+:!"):
        with users(f"acme:{CHEAP}", line) as file:
            check(ended("--htpasswd", file), 1, f"{file}: line 2: names that begin with `robot+` are those of `registryd robot`")
    with users("acme read acme", "robot+ci read acme") as rights, users(f"acme:{CHEAP}") as file:
        check(ended("--htpasswd", file, "--rights", rights), 1, f"{rights}: line 2: names that begin with `robot+` are those of `registryd robot`")


def the_next_robots_are_made_at_once():
    """Many commands at once: each robot is made once, and each name is given once."""
    with serving_robots() as (server, control), concurrent.futures.ThreadPoolExecutor(8) as pool:
        made = list(pool.map(lambda number: command(control, "robot", "add", f"ci{number % 6}", "--allow", "read:*", "--days", "1"), range(18)))
        assert sorted(status for status, _, _ in made) == 6 * [0] + 12 * [1], made
        secrets = dict(out.splitlines() for status, out, _ in made if status == 0)
        assert len(secrets) == len(set(secrets.values())) == 6 and all(may(server, *words) for words in secrets.items())
        gone = list(pool.map(lambda name: command(control, "robot", "revoke", name)[0], 2 * list(secrets)))
        assert gone.count(0) >= 6 and not any(may(server, *words) for words in secrets.items()) and not listed(control)


def the_page_has_commands():
    with serving_robots() as (_, control):
        typed = [shlex.split(line, comments=True) for line in blocks("docs/USERS.md", "Accounts of machines")[0].splitlines()]
        for words in filter(None, typed):
            status, _, err = command(control, *words[1:])
            assert (words[0], status) == ("registryd", 0), (words, err)


def clients_log_in():
    with serving_robots() as (server, control), tempfile.TemporaryDirectory() as top:
        secret = add(control, "ci", "read,write,delete:acme")
        image(f"{top}/image", [1000], 1)
        at, login, plain = f"docker://{server.address}/acme/app", f"robot+ci:{secret}", "--dest-tls-verify=false"
        skopeo("copy", plain, "--dest-creds", login, f"oci:{top}/image:latest", f"{at}:v1")
        skopeo("login", "--tls-verify=false", "--authfile", f"{top}/auth", "-u", "robot+ci", "-p", secret, server.address)
        skopeo("copy", "--src-tls-verify=false", "--authfile", f"{top}/auth", f"{at}:v1", f"oci:{top}/back:latest")
        same_blobs(f"{top}/image", f"{top}/back")
        fails(lambda: skopeo("copy", plain, "--dest-creds", "robot+ci:wrong", f"oci:{top}/image:latest", f"{at}:v2"))
        fails(lambda: skopeo("copy", plain, "--dest-creds", login, f"oci:{top}/image:latest", f"docker://{server.address}/other/app:v1"))
        robot(control, "revoke", "ci")
        fails(lambda: skopeo("copy", "--src-tls-verify=false", "--authfile", f"{top}/auth", f"{at}:v1", f"oci:{top}/none:latest"))


def docker_logs_in():
    with serving_robots() as (server, control), tempfile.TemporaryDirectory() as top:
        docker = docker_with_a_file(top, "robots")
        if docker is None:
            return
        try:
            secret, own = add(control, "ci", "read,write:acme"), f"{server.address}/acme/app:v1"
            login = lambda words: run(*docker.words, "login", "-u", "robot+ci", "-p", words, server.address)
            fails(lambda: login("wrong"))
            login(secret)
            docker.push(own)
            docker.forget()
            assert docker.pull(own) == {"file": b"content"}
            robot(control, "revoke", "ci")
            fails(lambda: run(*docker.words, "push", "-q", own))
            fails(lambda: login(secret))
        finally:
            docker.end()


TESTS = [a_robot_has_its_rights, wrong_secrets_are_refused, a_revoked_robot_is_refused_at_once, a_robot_ends, robots_survive_restarts,
         what_is_no_robot_is_refused, names_of_users_are_none_of_robots, the_next_robots_are_made_at_once, the_page_has_commands, clients_log_in, docker_logs_in]


def main():
    names = sys.argv[1:]
    tests = [test for test in TESTS if not names or test.__name__ in names]
    wrong = sum(played(test) for test in tests)
    print(f"robots: {len(tests) - wrong} passed, {wrong} failed")
    sys.exit(wrong > 0)


if __name__ == "__main__":
    main()
