#!/usr/bin/env python3
"""Tests upgrades (docs/UPGRADES.md): starts this version on folders that earlier versions left (`folders/`). Everything is served by tag and by
digest, open uploads go on, the database has this version, and a start changed only what the page lists.

upgrades.py --make NAME             makes folders/NAME.tar.xz with the programs $REGISTRYD and $BLOBD
upgrades.py --with REGISTRYD BLOBD  starts these earlier programs on folders of this version, and compares with what the page says
"""
import argparse, contextlib, glob, os, re, shutil, signal, subprocess, tempfile, time

import server
from documented import Shell, blocks
from kept_folders import STATES, check_served, check_uploads, content_of, database_of, database_version, earlier_versions, fill, make
from kept_folders import serving_folder, this_database, unpack, versions
from playing import play, until
from restarts import by_signal, database, folder, pulled, pushed
from server import TOP, sha256
from statuses import check, ended

PAGE = f"{os.path.dirname(TOP)}/docs/UPGRADES.md"
# How a version refuses the database of a later one: up to 0.1.0, and from 0.2.0 on.
REFUSALS = ("not a database of this version of registryd", "and this registryd reads versions up to")
TWO_LOGS = "the folder has another log, of numbered files"

# The one file of the log of the first versions.
FIRST_LOG = "log"


def read(path):
    with open(path, encoding="utf-8") as file:
        return file.read()


def listed(change):
    """Returns the names of files in the rows of the page's table whose change has a word."""
    rows = re.findall(rf"^\| ([^|]+) \| [^|]*\b{change}\b[^|]*\|$", read(PAGE), re.MULTILINE | re.IGNORECASE)
    assert rows, change
    return {name for row in rows for name in re.findall(r"`([^`]+)`", row)}


def log_files(content):
    return {name: data for name, data in content.items() if re.fullmatch(r"(log|base)\.\d+", name)}


def check_changes(before, after):
    """Checks that a start and an end changed what the page lists. No byte of the log is changed: a start adds to its last file, or replaces all
    files by a base."""
    before = dict(before)
    if FIRST_LOG in before:
        before["log.1"] = before.pop(FIRST_LOG)
    gone, made = set(before) - set(after), set(after) - set(before)
    kinds = lambda names: {re.sub(r"^contents/.*", "contents", re.sub(r"\.\d+$", ".N", name)) for name in names}
    assert kinds(gone) <= listed("removed"), gone
    assert kinds(made) <= listed("made"), made
    assert after["longest"] == b"16384\n" and any(name.startswith("contents/") for name in made), made
    last = max(log_files(before), key=lambda name: int(name.split(".")[1]))
    for name in set(before) - gone:
        is_same = after[name].startswith(before[name]) if name == last else after[name] == before[name]
        assert is_same or name in listed("changed"), name


def a_folder_is_served(name, state):
    """The second start finds nothing to change."""
    with tempfile.TemporaryDirectory() as top:
        facts = unpack(name, top)
        path = f"{top}/{state}"
        before = content_of(path)
        with serving_folder(path) as started:
            check_served(started.client(), facts)
            by_signal(started)
        assert database_version(path) == this_database(), database_version(path)
        after = content_of(path)
        check_changes(before, after)
        with serving_folder(path) as started:
            check_served(started.client(), facts)
            check_uploads(started.client(), facts)
            pushed(started.client(), "acme/new")
            by_signal(started)
        assert set(content_of(path)) == set(after), (set(content_of(path)), set(after))


def alive_in_session(session):
    """Returns the ids of the processes of a session that have not ended."""
    found = []
    for path in glob.glob("/proc/[0-9]*/stat"):
        with contextlib.suppress(OSError):
            # The name of the program, in parentheses, may have spaces.
            state, _, _, of, *_ = read(path).rsplit(")", 1)[1].split()
            if int(of) == session and state not in "ZX":
                found.append(int(path.split("/")[2]))
    return found


def kill_session(leader):
    """Kills a registryd that has a session of its own, and its blobd, and waits until both have ended."""
    def is_over():
        for process in alive_in_session(leader.pid):
            with contextlib.suppress(ProcessLookupError):
                os.kill(process, signal.SIGKILL)
        return not alive_in_session(leader.pid)
    # The leader is not waited for before, so that its id stays its own.
    assert until(is_over)
    leader.wait()


def a_first_start_is_killed(name):
    """Whenever that is, a later start finds everything."""
    with tempfile.TemporaryDirectory() as top:
        facts = unpack(name, top)
        path = f"{top}/killed"
        for milliseconds in (0, 5, 10, 20, 40, 80):
            command = [server.REGISTRYD, "--listen", "127.0.0.1:0", "--blobd", server.BLOBD, "--data", path, "acme=1000000000", "other=1000000000"]
            process = subprocess.Popen(command, stderr=subprocess.DEVNULL, start_new_session=True)
            time.sleep(milliseconds / 1000)
            kill_session(process)
        with serving_folder(path) as started:
            check_served(started.client(), facts)
            check_uploads(started.client(), facts)
            by_signal(started)


def a_start_that_fails_has_completed_the_database(name):
    """It finds later that the log is lost. So the version before needs the backup also then."""
    with tempfile.TemporaryDirectory() as top:
        unpack(name, top)
        path = f"{top}/ended"
        for file in content_of(path):
            if file == FIRST_LOG or file.startswith(("log.", "base.")):
                os.remove(f"{path}/{file}")
        check(ended("--data", path), 8, "lost")
        assert database_version(path) == this_database(), database_version(path)


def the_copy_from_before_goes_back(name):
    """By the commands of the page. The earlier version finds its folder as it left it, and this one what it had served."""
    with tempfile.TemporaryDirectory() as top:
        facts, shell = unpack(name, top), Shell(top, {"apt install": ": "})
        path = f"{top}/srv/registry"
        os.rename(f"{top}/ended", path)
        before = content_of(path)
        upgrade, = blocks("docs/UPGRADES.md", "How to upgrade")
        shell.type(upgrade.split("apt install")[0])
        with serving_folder(path) as started:
            by_signal(started)
        assert content_of(path) != before
        shell.type(blocks("docs/UPGRADES.md", "How to go back")[0])
        assert content_of(path) == before, list(content_of(path))
        with serving_folder(f"{path}.after-upgrade") as started:
            check_served(started.client(), facts)
            check_uploads(started.client(), facts)
            by_signal(started)


def a_folder_of_this_version_is_served():
    """What makes the archives works, and pushes what the checks look for."""
    with folder() as path:
        facts = fill(path)
        with serving_folder(path) as started:
            check_served(started.client(), facts)
            check_uploads(started.client(), facts)
            by_signal(started)
        assert database_version(path) == this_database(), database_version(path)


def set_version(path, version):
    with database(path) as rows:
        rows.execute(f"PRAGMA user_version = {version}")


def a_database_of_a_later_version_is_refused():
    """Nothing is changed."""
    with folder() as path:
        facts, version = fill(path), this_database()
        with serving_folder(path) as started:
            by_signal(started)
        set_version(path, version + 1)
        before = content_of(path)
        check(ended("--data", path), 8, f"{path}/registry.db: it has version {version + 1}, and this registryd reads versions up to {version}",
              "start the later version, or restore a backup")
        assert content_of(path) == before
        set_version(path, version)
        with serving_folder(path) as started:
            check_served(started.client(), facts)
            check_uploads(started.client(), facts)
            by_signal(started)


def each_version_has_a_folder():
    """Each release, and each version of the database."""
    releases = re.findall(r"^## (\d+\.\d+\.\d+)", read(f"{os.path.dirname(TOP)}/CHANGELOG.md"), re.MULTILINE)
    assert releases, "no release in CHANGELOG"
    for release in releases:
        assert any(name.split("+")[0] == release for name in versions()), release
    databases = {database_of(name) for name in versions()}
    assert databases >= set(range(1, this_database())), databases


def tests():
    found = [a_folder_of_this_version_is_served, a_database_of_a_later_version_is_refused, each_version_has_a_folder,
             (the_copy_from_before_goes_back, earlier_versions()[-1])]
    for name in versions():
        found += [(a_folder_is_served, name, state) for state in STATES]
        found += [(test, name) for test in (a_first_start_is_killed, a_start_that_fails_has_completed_the_database)]
    return found


@contextlib.contextmanager
def programs(registryd, blobd):
    """Lets tests start these programs."""
    ours = server.REGISTRYD, server.BLOBD
    server.REGISTRYD, server.BLOBD = registryd, blobd
    try:
        yield
    finally:
        server.REGISTRYD, server.BLOBD = ours


def reads_this_log(*earlier):
    """Returns whether programs make a log with numbers."""
    with folder() as path, programs(*earlier):
        with serving_folder(path) as started:
            by_signal(started)
        return FIRST_LOG not in content_of(path)


def an_earlier_program_refuses_a_folder(state, *earlier):
    """It changes no file of the log, and nothing at all after a normal end. But the first versions make an empty log of their own."""
    with folder() as path:
        facts = fill(path)
        if state == "ended":
            with serving_folder(path) as started:
                by_signal(started)
        before = content_of(path)
        refused = ended("--data", path, programs=earlier)
        check(refused, 8, "registry.db")
        assert any(text in refused[1] for text in REFUSALS), refused
        after = content_of(path)
        assert log_files(after) == log_files(before), (list(before), list(after))
        added = set(after) - set(before)
        assert added <= {FIRST_LOG}, added
        if state == "ended":
            assert all(after[name] == data for name, data in before.items()), list(after)
        if added:
            print(f"upgrades: the earlier program made an empty `{FIRST_LOG}` of {len(after[FIRST_LOG])} bytes")
            check(ended("--data", path), 8, f"{path}/{FIRST_LOG} is damaged at byte 0", TWO_LOGS)
            os.remove(f"{path}/{FIRST_LOG}")
        with serving_folder(path) as started:
            check_served(started.client(), facts)
            check_uploads(started.client(), facts)
            by_signal(started)


def a_log_goes_back_with_the_database_of_a_backup(*earlier):
    """An earlier program serves what it had before the upgrade. What was pushed after it is there by its digest, without its tag."""
    with folder() as path, programs(*earlier):
        facts = fill(path)
        with serving_folder(path) as started:
            by_signal(started)
        os.makedirs(f"{path}.back", mode=0o700)
        shutil.copy(f"{path}/registry.db", f"{path}.back")
        with programs(*OURS), serving_folder(path) as started:
            image = pushed(started.client(), "acme/web", "new", b"new")
            by_signal(started)
        for name in log_files(content_of(path)):
            shutil.copy(f"{path}/{name}", f"{path}.back")
        with serving_folder(f"{path}.back") as started:
            client = started.client()
            assert pulled(client, "acme/web", "new") == 404
            assert pulled(client, "acme/web", sha256(image))[0] == image
            check_served(client, facts)
            check_uploads(client, facts)
            by_signal(started)


def a_log_goes_back_alone(*earlier):
    """All contents are there by their digests. A command of the page puts the tags again. The open upload is lost."""
    with tempfile.TemporaryDirectory() as top:
        shell = Shell(top)
        after, back = f"{top}/srv/registry.after-upgrade", f"{top}/srv/registry"
        facts = fill(after)
        with serving_folder(after) as started:
            by_signal(started)
        os.makedirs(back, mode=0o700)
        for name in log_files(content_of(after)):
            shutil.copy(f"{after}/{name}", back)
        with programs(*earlier):
            check(ended("--data", back, programs=earlier), 8, "registry.db is missing or empty", "--accept-loss")
            with serving_folder(back, "--accept-loss") as started:
                client = started.client()
                for repo, manifests in facts["manifests"].items():
                    for digest, (kind, content) in manifests.items():
                        assert pulled(client, repo, digest) == (content.encode(), kind), (repo, digest)
                    assert all(pulled(client, repo, tag) == 404 for tag in facts["tags"][repo]), repo
                assert client.ask("GET", facts["uploads"][0]["at"]).status == 404
                shell.words["127.0.0.1:5000"] = started.address
                block, = [block for block in blocks("docs/UPGRADES.md", "How to go back") if "sqlite3" in block]
                shell.type(block)
                check_served(client, facts)
                by_signal(started)


OURS = server.REGISTRYD, server.BLOBD


def main():
    words = argparse.ArgumentParser(usage=__doc__)
    words.add_argument("--make")
    words.add_argument("--with", dest="earlier", nargs=2)
    words = words.parse_args()
    if words.make:
        with folder() as path:
            make(words.make, path)
    elif words.earlier:
        earlier = tuple(os.path.abspath(program) for program in words.earlier)
        found = [(an_earlier_program_refuses_a_folder, state, *earlier) for state in STATES]
        if reads_this_log(*earlier):
            found += [(test, *earlier) for test in (a_log_goes_back_with_the_database_of_a_backup, a_log_goes_back_alone)]
        else:
            print("upgrades: the earlier programs do not read the log of this version: they need a whole copy")
        play("upgrades", found)
    else:
        play("upgrades", tests())


if __name__ == "__main__":
    main()
