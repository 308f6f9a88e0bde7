#!/usr/bin/env python3
"""Tests the file of tenants: starts with good and bad files, and SIGHUP after changes of bounds, of what takes a restart, and of nothing that
is right. Without a built blobd, `tenants.py --stub` runs what a stub store can do."""
import os, re, shutil, stat, sys, tempfile, threading

import server as servers
from limits import users
from playing import play, serving_stub, took
from restarts import by_kill_of_both, by_signal, folder, push, pushed
from rights import write
from server import INDEX, serving, sha256
from shares import by_digest, index_of, putting, refused, totals_of
from statuses import check, ended
from views import status_of, tenant_of

NOBODY = 65534
MOST = 4096
READ = "cannot read the tenants: "
KEPT = ": kept the tenants that were read before"
AGAIN = "read the tenants again"
STUB = lambda *words, **options: serving_stub({}, *words, **options)

# Lines of which none is right after the line `one=1`, and what is said of them.
WRONG = (
    ("acme", "`acme` is not TENANT=QUOTA[,BLOBS]"),
    ("acme=", "invalid quota `` in `acme=`"),
    ("acme=many", "invalid quota `many` in `acme=many`: write a number of bytes from 0 to 1125899906842624"),
    ("acme=-1", "invalid quota `-1`"),
    ("acme=1125899906842625", "invalid quota `1125899906842625`"),
    ("acme=5,", "invalid share `` in `acme=5,`: write a number of blobs from 0 to 4294967295"),
    ("acme=5,4294967296", "invalid share"),
    ("acme=5,1,1", "invalid share `1,1`"),
    ("Acme=5", "invalid tenant `Acme` in `Acme=5`: write a name such as acme or acme-2"),
    ("../acme=5", "invalid tenant `../acme`"),
    ("acme/web=5", "invalid tenant `acme/web`"),
    ("<script>alert(1)</script>=5", "invalid tenant `<script>alert(1)</script>`"),
    ("';DROP-TABLE-tenants;--=5", "invalid tenant `';DROP-TABLE-tenants;--`"),
    ("$(reboot)=5", "invalid tenant `$(reboot)`"),
    ("\x1b[31mred\x07=5", "invalid tenant `\ufffd[31mred\ufffd`"),
    ("acme=5 tags", "invalid number in `tags`: write a number from 0 to 18446744073709551615"),
    ("acme=5 tags=few", "invalid number in `tags=few`"),
    ("acme=5 tags=1 tags=1", "a setting is there twice: `tags=1`"),
    ("acme=5 quota=7", "not a setting: `quota=7`: write manifests=N, manifest-bytes=N or tags=N"),
    ("acme=5 # the first", "not a setting: `#`"),
    ("acme=5 other=6", "not a setting: `other=6`"),
    ("one=2", "duplicate tenant: one: line 1 has it too"),
    ("given=2", "duplicate tenant: given: it is an argument too"),
)


def fifo(path):
    os.mkfifo(path)


def link_to_nothing(path):
    os.symlink(f"{path}.none", path)


def terabyte(path):
    """Makes a file of one terabyte that takes no room."""
    with open(path, "wb") as file:
        file.truncate(1 << 40)


# What may be in the place of the file, and what is said of it.
NO_FILES = ((None, "No such file or directory"), (os.mkdir, "not a regular file"), (fifo, "not a regular file"), (link_to_nothing, "No such file or directory"),
            (terabyte, "longer than 67108864 bytes"))


def as_nobody():
    os.setgroups([])
    os.setgid(NOBODY)
    os.setuid(NOBODY)


def put_in_place(path, make):
    """Removes what is at a path, and puts something else there, or nothing."""
    if os.path.isdir(path) and not os.path.islink(path):
        os.rmdir(path)
    else:
        os.remove(path)
    if make:
        make(path)


def bounds_of(client, name):
    """Returns the maximum numbers of a tenant's manifests, of their bytes, and of its tags."""
    tenant = tenant_of(status_of(client), name)
    return tenant["most_manifests"], tenant["most_manifest_bytes"], tenant["most_tags"]


def limits_of(client):
    """Returns all that the registry grants its tenants."""
    names = ("name", "quota", "share", "most_manifests", "most_manifest_bytes", "most_tags")
    return [tuple(tenant[name] for name in names) for tenant in status_of(client)["tenants"]]


def the_file_names_tenants():
    """In addition to the arguments, and alone. Tenants without a share divide the slots."""
    with users("# tenants", "", "acme=1000000", "  other=2000000,3 tags=2\tmanifests=4 ", "\t# more=1") as file:
        with serving("--slots", "8", "--manifests", "9", "--tenants", file, tenants=["given=5000000"]) as server:
            client = server.client()
            default = 16 << 20
            expected = [("given", 5000000, 2, 9, default, None), ("acme", 1000000, 2, 9, default, None), ("other", 2000000, 3, 4, default, 2)]
            assert limits_of(client) == expected, limits_of(client)
            for repo in ("given/a", "acme/a", "other/a"):
                pushed(client, repo)
            assert putting(client, "more/a", "v1", index_of(50)).status == 404
        with serving("--tenants", file, tenants=()) as server:
            pushed(server.client(), "other/a")
            assert [tenant[0] for tenant in limits_of(server.client())] == ["acme", "other"]
    with users("acme=5") as file, serving("--tenants", file, "--mirror-of", "http://127.0.0.1:1", tenants=()) as server:
        assert server.wait_for(r"a tenant is a mirror tenant=acme")


def a_start_names_the_line():
    """It ends as one with a wrong argument does, before the store starts, so that a service manager does not try it again."""
    given = dict(tenants=["given=1"], programs=(servers.REGISTRYD, "/bin/false"))
    for line, why in WRONG:
        with users("one=1", "# tenants", line) as file:
            check(ended("--tenants", file, **given), 2, f"{READ}{file}: line 3: {why}")
    with users("# none") as file:
        check(ended("--tenants", file, tenants=[], programs=given["programs"]), 2, f"no tenant: {file}: write a line TENANT=QUOTA[,BLOBS]")
        check(ended("--tenants", file, "--tenants", file, **given), 2, "--tenants")
    check(ended(tenants=[]), 2, "TENANT=QUOTA[,BLOBS]")
    with users("a=1", "b=1") as file:
        words = ["--tenants", file, "--mirror-of"]
        check(ended(*words, "https://x", tenants=[]), 2, "which tenant is a mirror of https://x?")
        check(ended(*words, "c=https://x", tenants=[]), 2, "no such tenant: c")
    with tempfile.TemporaryDirectory() as top:
        for number, (make, why) in enumerate(NO_FILES):
            path = f"{top}/{number}"
            if make:
                make(path)
            check(ended("--tenants", path, **given), 2, f"{READ}{path}: {why}")
        with open(f"{top}/bytes", "wb") as file:
            file.write(b"acme=5\n\xff\xfe=5\n")
        check(ended("--tenants", file.name, **given), 2, f"{READ}{file.name}: not UTF-8")


def a_file_that_may_not_be_read():
    """At a start, and at SIGHUP."""
    if os.getuid() != 0:
        print("tenants: left out: a file that may not be read (it wants root)")
        return
    with tempfile.TemporaryDirectory() as top:
        os.chmod(top, 0o755)
        programs = [shutil.copy(program, f"{top}/{number}") for number, program in enumerate([servers.REGISTRYD, servers.BLOBD])]
        file = f"{top}/tenants"
        write(file, "acme=5000 tags=1")
        os.chmod(file, 0o600)
        check(ended("--tenants", file, tenants=(), programs=programs, preexec_fn=as_nobody), 2, f"{READ}{file}: Permission denied")
        os.chown(file, NOBODY, NOBODY)
        before, (servers.REGISTRYD, servers.BLOBD) = (servers.REGISTRYD, servers.BLOBD), programs
        try:
            with serving("--tenants", file, tenants=(), preexec_fn=as_nobody) as server:
                write(file, "acme=5000 tags=2")
                os.chmod(file, 0)
                server.reload(f"{READ}{file}: Permission denied.*{KEPT}")
                assert bounds_of(server.client(), "acme")[2] == 1
                os.chmod(file, stat.S_IRUSR)
                server.reload(AGAIN)
                assert bounds_of(server.client(), "acme")[2] == 2
        finally:
            servers.REGISTRYD, servers.BLOBD = before


def long_files():
    """A long line has a short message. A start reads as many tenants as a store has, and not one more."""
    given = dict(tenants=["given=1"], programs=(servers.REGISTRYD, "/bin/false"))
    for line in (1 << 20) * "a", (1 << 20) * "a" + "=5", "a=5 " + (1 << 20) * "\x1b", "a=5" + (1 << 20) * " tags=1":
        with users("one=1", line) as file:
            status, text = ended("--tenants", file, **given)
            assert status == 2 and f"{READ}{file}: line 2: " in text and len(text) < 4000 and "\x1b" not in text, text[:4000]
    longest = 255 * "a"
    with users(f"# {(1 << 20) * 'x'}", f"{(1 << 20) * ' '}{longest}=5") as file, serving("--tenants", file, tenants=()) as server:
        assert [name for name, *_ in limits_of(server.client())] == [longest]
        write(file, (1 << 22) * "z")
        server.reload(rf"{READ}{file}: line 1: `z{{512}}\.\.\. \(4194304 bytes\)` is not TENANT=QUOTA.*{KEPT}")
    lines = [f"t{number}=1000000" for number in range(MOST)]
    with users(*lines) as file:
        check(ended("--tenants", file, **given), 2, f"{READ}{file}: line {MOST}: too many tenants: the maximum is {MOST}, with those that are arguments")
    with users(*lines, "more=1") as file:
        check(ended("--tenants", file, tenants=[], programs=given["programs"]), 2, f"{READ}{file}: line {MOST + 1}: too many tenants")


def the_most_tenants():
    """One of 4,096 gets other bounds, and then all of them do."""
    lines = [f"t{number}=1000000" for number in range(MOST)]
    last = f"t{MOST - 1}"
    with users(*lines) as file, serving("--tenants", file, tenants=()) as server:
        client = server.client()
        pushed(client, f"{last}/app")
        write(file, *lines[:-1], f"{lines[-1]} tags=1")
        assert took(lambda: server.reload(AGAIN))[1] < 10
        assert refused(putting(client, f"{last}/app", "v2", index_of(50))) == (403, "DENIED", "tenant_tags", 1)
        assert len(server.logged().split("the bounds of a tenant changed")) == 2
        write(file, *(f"{line} tags=0" for line in reversed(lines)))
        assert took(lambda: server.reload(AGAIN))[1] < 10
        for tenant in ("t0", last):
            assert refused(putting(client, f"{tenant}/app", "v3", index_of(50)))[2:] == ("tenant_tags", 0)
        write(file, *lines[:-1])
        server.reload(f"no line of tenant {last}: the removal of a tenant takes a restart{KEPT}")


def bounds_hold_at_once(serve):
    """A line precedes the options, and these the defaults. Smaller bounds delete nothing, and refuse what is new."""
    with users("acme=1000000 tags=1", "other=1000000") as file, serve("--tags", "3", "--tenants", file, tenants=["given=1000000"]) as server:
        client = server.client()
        def bounds(*lines):
            write(file, *lines)
            server.reload(AGAIN)
            return bounds_of(client, "acme")
        default = 16 << 20
        assert bounds_of(client, "acme") == (None, default, 1) and bounds_of(client, "given") == bounds_of(client, "other") == (None, default, 3)
        assert putting(client, "acme/one", "v1", index_of(100)).status == 201
        assert refused(putting(client, "acme/one", "v2", index_of(101))) == (403, "DENIED", "tenant_tags", 1)
        assert bounds("other=1000000", "acme=1000000 tags=2") == (None, default, 2)
        assert putting(client, "acme/one", "v2", index_of(101)).status == 201
        assert server.wait_for(r"the bounds of a tenant changed tenant=acme manifest_bytes=16777216 tags=2\n")
        assert bounds("acme=1000000 manifests=2 tags=9", "other=1000000 tags=0") == (2, default, 9)
        assert refused(by_digest(client, "acme/two", index_of(102))) == (403, "DENIED", "tenant_manifests", 2)
        assert refused(putting(client, "other/one", "v1", index_of(100)))[2:] == ("tenant_tags", 0)
        assert bounds("acme=1000000 manifest-bytes=210", "other=1000000") == (None, 210, 3)
        assert refused(by_digest(client, "acme/two", index_of(102))) == (403, "DENIED", "tenant_manifest_bytes", 210)
        assert by_digest(client, "acme/two", index_of(9 + 40)).status == 403
        # Nothing is deleted, a tag may move to what is there, and what is deleted makes room.
        assert bounds("acme=1000000 manifests=1 manifest-bytes=1 tags=1", "other=1000000") == (1, 1, 1)
        assert totals_of(client, "acme") == (2, 201, 2)
        assert putting(client, "acme/one", "v1", index_of(101)).status == 201
        assert refused(putting(client, "acme/one", "v3", index_of(100)))[2:] == ("tenant_tags", 1)
        # Without its settings, the options and the default hold again.
        assert bounds("other=1000000", "# acme", "acme=1000000") == (None, default, 3)
        for tag, status in (("v3", 201), ("v4", 403)):
            assert putting(client, "acme/two", tag, index_of(100)).status == status, tag
        assert bounds_of(client, "given") == (None, default, 3)


def changes_that_take_a_restart(serve):
    """None of them is made, nor is any other change of the file. A file without them is accepted afterwards."""
    first, lines = "acme=1000000,5 tags=1", ["acme=1000000,5 tags=1", "other=2000000", "x=3"]
    with users(*lines) as file, serve("--tenants", file, tenants=["given=4000000"]) as server:
        client = server.client()
        before = limits_of(client)
        for changed, why in (
                ([first, "other=2000001", "x=3"], "line 2: a new quota takes a restart: tenant other"),
                ([first, "other=0", "x=3"], "line 2: a new quota takes a restart: tenant other"),
                ([first, "other=2000000,7", "x=3"], "line 2: a new share takes a restart: tenant other"),
                (["", "acme=1000000 tags=1", *lines[1:]], "line 2: a new share takes a restart: tenant acme"),
                (["acme=1000001,6 tags=1", *lines[1:]], "line 1: a new quota and a new share take a restart: tenant acme"),
                ([*lines, "# new", "new=5"], "line 5: a new tenant takes a restart: new"),
                (["new=5", *lines], "line 1: a new tenant takes a restart: new"),
                ([first, "# other=2000000", "x=3"], "no line of tenant other: the removal of a tenant takes a restart"),
                ([], "no line of tenant acme: the removal of a tenant takes a restart"),
                ([first, "another=2000000", "x=3"], "no line of tenant other: the removal of a tenant takes a restart"),
                ([*lines, "given=4000000"], "line 4: duplicate tenant: given: it is an argument too")):
            for others in (changed, [line.replace("tags=1", "tags=2") for line in changed]):
                write(file, *others)
                verb = "read" if "duplicate" in why else "change"
                server.reload(f"cannot {verb} the tenants: {file}: {why}{KEPT}")
                assert limits_of(client) == before, others
        assert serve is STUB or putting(client, "new/a", "v1", index_of(50)).status == 404
        # Lines may change their order.
        write(file, "x=3", "# tenants", "other=2000000 tags=7", "acme=1000000,5")
        server.reload(AGAIN)
        assert bounds_of(client, "other")[2] == 7 and bounds_of(client, "acme")[2] is None
        assert [tenant[:3] for tenant in limits_of(client)] == [tenant[:3] for tenant in before]


def a_bad_file_changes_nothing(serve):
    with users("one=1000000 tags=1", "two=1") as file, serve("--tenants", file, tenants=["given=1000000"]) as server:
        client = server.client()
        before = limits_of(client)
        for line, why in WRONG:
            write(file, "one=1000000 tags=2", "two=1", line)
            server.reload(f"{READ}{file}: line 3: {re.escape(why)}.*{KEPT}")
            assert limits_of(client) == before, line
        with open(file, "wb") as bytes_of:
            bytes_of.write(b"one=1000000 tags=2\ntwo=1\n# \xff\n")
        server.reload(f"{READ}{file}: not UTF-8{KEPT}")
        for make, why in NO_FILES:
            put_in_place(file, make)
            server.reload(f"{READ}{file}: {why}.*{KEPT}")
            assert limits_of(client) == before, why
            if make:
                put_in_place(file, None)
            write(file, "two=1", "one=1000000 tags=1")
            server.reload(AGAIN)
        # Of a file that is written in steps, the lines that are there are read.
        with open(file, "w") as half:
            half.write("one=1000000 tags=2\ntw")
        server.reload(f"{READ}{file}: line 2: `tw` is not TENANT=QUOTA")
        assert limits_of(client) == before and putting(client, "one/a", "v1", index_of(50)).status == 201
        assert refused(putting(client, "one/a", "v2", index_of(50)))[2:] == ("tenant_tags", 1)


def clients_push_while_the_file_changes(serve):
    """No request is lost, and no more is accepted than the greatest of the bounds."""
    rounds, clients = 30, 4
    with users("acme=1000000000 manifests=5", "other=1000000000") as file, serve("--tenants", file, tenants=()) as server:
        statuses, done = [], threading.Event()
        def push_all(number):
            client, count = server.client(), 0
            while not done.is_set():
                content = index_of(100 + 1000 * number + count)
                statuses.append(by_digest(client, f"acme/r{number}", content).status)
                statuses.append(client.ask("DELETE", f"/v2/acme/r{number}/manifests/{sha256(content)}").status)
                assert by_digest(client, f"other/r{number}", content).status == 201
                count += 1
        threads = [threading.Thread(target=push_all, args=[number]) for number in range(clients)]
        for thread in threads:
            thread.start()
        for number in range(rounds):
            write(file, f"acme=1000000000 manifests={number % 5 + 1}", "other=1000000000")
            server.reload(AGAIN)
            write(file, "acme=1000000000 manifests=9", "other=1000000000,7")
            server.reload("a new share takes a restart")
            assert bounds_of(server.client(), "acme")[0] == number % 5 + 1
            assert totals_of(server.client(), "acme")[0] <= 5
        done.set()
        for thread in threads:
            thread.join()
        assert set(statuses) <= {201, 202, 403, 404} and 201 in statuses, set(statuses)


def a_restart_reads_what_a_reload_did_not_make():
    """With a folder: another quota, another share and a new tenant. A tenant with content needs its line."""
    with folder() as path, users("acme=1000000,5", "other=1000000") as file:
        def start():
            return serving("--data", path, "--tenants", file, tenants=())
        with start() as server:
            image = pushed(server.client(), "acme/one", "v1", b"layer")
            write(file, "new=7 tags=1", "acme=2000000,6 tags=4", "other=1000000")
            server.reload("line 1: a new tenant takes a restart")
            by_kill_of_both(server)
        with start() as server:
            client = server.client()
            default = (1 << 20) // 3
            assert [tenant[:3] for tenant in limits_of(client)] == [("new", 7, default), ("acme", 2000000, 6), ("other", 1000000, default)]
            assert bounds_of(client, "acme")[2] == 4
            assert client.ask("GET", f"/v2/acme/one/manifests/{sha256(image)}").body == image
            push(client, "acme/one", b"more")
            by_signal(server)
        write(file, "acme=5,6", "other=1000000")
        check(ended("--data", path, "--tenants", file, tenants=()), 10, "the log needs other settings", "acme")
        write(file, "other=1000000")
        check(ended("--data", path, "--tenants", file, tenants=()), 10, "the log needs other settings", "acme")
        # A tenant may leave the file for the command line.
        with serving("--data", path, "--tenants", file, tenants=["acme=2000000,6"]) as server:
            assert server.client().ask("GET", f"/v2/acme/one/manifests/{sha256(image)}").body == image


WITH_EITHER = [bounds_hold_at_once, changes_that_take_a_restart, a_bad_file_changes_nothing, clients_push_while_the_file_changes]
WITH_STUB = [a_start_names_the_line, long_files]
WITH_STORE = [the_file_names_tenants, a_file_that_may_not_be_read, the_most_tenants, a_restart_reads_what_a_reload_did_not_make]


def main():
    if sys.argv[1:] == ["--stub"]:
        play("tenants", [*((test, STUB) for test in WITH_EITHER), *WITH_STUB])
    play("tenants", [*((test, serving) for test in WITH_EITHER), *WITH_STUB, *WITH_STORE])


if __name__ == "__main__":
    main()
