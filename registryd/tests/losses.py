#!/usr/bin/env python3
"""Tests the start of a registry with a folder of which something was lost or replaced although it was on the disk: the log, a file of it, or the
database. Such a start ends with status 8, names what is lost, and changes nothing, so that what is put back is whole. With --accept-loss it
goes on without it."""
import os, shutil, sqlite3

from crash.paths import log_of
from playing import play
from restarts import by_kill_of_both, by_signal, database, folder, pulled, push, pushed, tags_of
from server import MANIFEST, REGISTRYD, index_of, push_index, serving, sha256
from statuses import check, ended

# The file that a start with `--sync never` makes.
MARK = "registry.unsynced"
LOST, ACCEPT = "data that was on the disk is lost", "accept the loss with --accept-loss"


def log_names(path):
    return [name for name in os.listdir(path) if name.startswith(("log.", "base."))]


def copy_log(source, target):
    """Puts the log of a folder in the place of that of another one."""
    for name in log_names(target):
        os.remove(f"{target}/{name}")
    for name in log_names(source):
        shutil.copy(f"{source}/{name}", target)


def remove_database(path):
    for end in ("", "-wal", "-shm"):
        if os.path.exists(f"{path}/registry.db{end}"):
            os.remove(f"{path}/registry.db{end}")


def copy_database(source, target):
    remove_database(target)
    shutil.copy(f"{source}/registry.db", target)


def image_of(path, tag, layer, words=()):
    """Starts a registry, pushes an image, and ends it. Returns the manifest."""
    with serving("--data", path, *words) as server:
        image = pushed(server.client(), tag=tag, layer=layer)
        by_signal(server)
    return image


def rows_of(path):
    with database(path) as rows:
        return rows.execute("SELECT repository, tag, digest FROM tags ORDER BY tag").fetchall()


def has_images(path, *images, words=()):
    """Starts a registry and checks that it has these tags and no others."""
    with serving("--data", path, *words) as server:
        client = server.client()
        assert tags_of(client, "acme/one") == [tag for tag, _ in images], tags_of(client, "acme/one")
        for tag, image in images:
            assert pulled(client, "acme/one", tag) == (image, MANIFEST), tag
        by_signal(server)
        return server.logged()


def an_older_log():
    """The newer one is put back later, and all is there. Or the loss is accepted, once."""
    with folder() as path:
        first = image_of(path, "v1", b"one")
        shutil.copytree(path, f"{path}.old")
        second = image_of(path, "v2", b"two")
        shutil.copytree(path, f"{path}.new")
        copy_log(f"{path}.old", path)
        for _ in range(2):
            check(ended("--data", path), 8, LOST, "the log is older than registry.db", ACCEPT)
            assert len(rows_of(path)) == 2
        copy_log(f"{path}.new", path)
        has_images(path, ("v1", first), ("v2", second))
        copy_log(f"{path}.old", path)
        said = has_images(path, ("v1", first), words=["--accept-loss"])
        assert "accepted a loss: the log is older" in said and f"acme/one:v2 ({sha256(second)})" in said, said
        assert "remove the option afterwards" in said
        has_images(path, ("v1", first))


def an_older_log_without_blobs():
    """Also a blob that no manifest refers to is missed."""
    with folder() as path:
        image_of(path, "v1", b"one")
        shutil.copytree(path, f"{path}.old")
        with serving("--data", path) as server:
            push(server.client(), "acme/one", b"alone")
            by_signal(server)
        copy_log(f"{path}.old", path)
        check(ended("--data", path), 8, LOST, "the log is older than registry.db")


def manifests_that_the_store_lacks():
    """The database has no mark of the log's end, as that of an earlier version. The first of them are named."""
    with folder() as path:
        first = image_of(path, "v1", b"one")
        shutil.copytree(path, f"{path}.old")
        with serving("--data", path) as server:
            client = server.client()
            lost = [pushed(client, tag=f"w{number:02}", layer=b"%d" % number) for number in range(12)]
            client.ask("DELETE", "/v2/acme/one/manifests/w00")
            by_signal(server)
        with database(path) as rows:
            rows.execute("DELETE FROM settings WHERE name IN ('log_end', 'commits')")
        os.remove(f"{path}/registry.commits")
        copy_log(f"{path}.old", path)
        result = ended("--data", path)
        check(result, 8, LOST, "12 manifests", "11 tags", f"acme/one:w01 ({sha256(lost[1])})", f"acme/one:w10 ({sha256(lost[10])}) and 2 more", ACCEPT)
        assert len(rows_of(path)) == 12 and sha256(lost[11]) not in result[1], result
        with serving("--data", path, "--accept-loss") as server:
            assert "dropped manifests that the store does not have, with their tags count=12" in server.logged()
            assert tags_of(server.client(), "acme/one") == ["v1"] and pulled(server.client(), "acme/one", "v1") == (first, MANIFEST)
            by_signal(server)
        assert len(rows_of(path)) == 1


def files_of_the_log_that_are_missing():
    """The last file, or all."""
    with folder() as path:
        with serving("--data", path) as server:
            push_index(server.client(), "acme/one", index_of(1, 1_200_000))
            pushed(server.client())
            by_signal(server)
        assert sorted(log_names(path)) == ["log.1", "log.2"]
        shutil.copytree(path, f"{path}.new")
        os.remove(f"{path}/log.2")
        check(ended("--data", path), 8, LOST, "its last files are missing", "of file 1", "of file 2")
        os.remove(f"{path}/log.1")
        check(ended("--data", path), 8, LOST, "the log is missing")
        assert log_names(path) == []
        copy_log(f"{path}.new", path)
        with serving("--data", path) as server:
            assert tags_of(server.client(), "acme/one") == ["v1"]
            by_signal(server)


def a_rewritten_log_is_not_older():
    with folder() as path:
        with serving("--data", path) as server:
            client = server.client()
            assert client.ask("DELETE", push_index(client, "acme/two", index_of(1, 1_500_000))).status == 202
            image = pushed(client)
            by_signal(server)
        for _ in range(2):
            assert "accept" not in has_images(path, ("v1", image))
            assert any(name.startswith("base.") for name in log_names(path)), log_names(path)
        os.remove(f"{path}/{max(log_names(path))}")
        check(ended("--data", path), 8, LOST, "its last files are missing", "the end of file")


def a_start_that_is_interrupted_may_have_cut_the_log():
    """The store cuts what a crash has left of a write. The next start does not take that for a loss."""
    with folder() as path:
        image_of(path, "v1", b"one")
        with serving("--data", path) as server:
            by_kill_of_both(server)
        last = log_of(path).last
        whole = last.read_bytes()
        os.truncate(last, len(whole) - 1)
        check(ended("--data", path), 8, LOST, "the log is older than registry.db")
        last.write_bytes(whole)
        check(ended("--data", path, programs=(REGISTRYD, "/bin/false")), 1, "blobd ended")
        os.truncate(last, len(whole) - 1)
        with serving("--data", path) as server:
            assert tags_of(server.client(), "acme/one") == ["v1"]
            by_signal(server)


def the_log_of_another_store():
    with folder() as path, folder() as other:
        first, second = image_of(path, "v1", b"one"), image_of(other, "v1", b"two")
        for one, another in ((path, other), (other, path)):
            os.rename(one, f"{one}.kept")
            shutil.copytree(f"{one}.kept", one)
            copy_log(f"{another}.kept" if os.path.exists(f"{another}.kept") else another, one)
        for one in (path, other):
            check(ended("--data", one), 8, LOST, "the log is not the one of registry.db", ACCEPT)
            copy_log(f"{one}.kept", one)
        has_images(path, ("v1", first))
        has_images(other, ("v1", second))


def a_database_that_is_gone():
    """It is missing, or empty. Nothing is made in its place."""
    with folder() as path:
        image = image_of(path, "v1", b"one")
        shutil.copytree(path, f"{path}.new")
        os.remove(f"{path}/registry.db")
        check(ended("--data", path), 8, LOST, "registry.db is missing or empty", ACCEPT)
        assert not os.path.exists(f"{path}/registry.db")
        open(f"{path}/registry.db", "w").close()
        check(ended("--data", path), 8, LOST, "registry.db is missing or empty")
        assert os.path.getsize(f"{path}/registry.db") == 0
        with serving("--data", path, "--accept-loss") as server:
            assert tags_of(server.client(), "acme/one") == 404
            assert pulled(server.client(), "acme/one", sha256(image)) == (image, MANIFEST)
            by_signal(server)
        copy_database(f"{path}.new", path)
        os.remove(f"{path}/registry.commits")
        has_images(path, ("v1", image))


def an_older_database():
    """Of an earlier run, or of the same one. Then tags that were deleted would be back, and later ones gone."""
    with folder() as path:
        first = image_of(path, "v1", b"one")
        with serving("--data", path) as server:
            client = server.client()
            pushed(client, tag="v2", layer=b"two")
            with sqlite3.connect(f"{path}/registry.db") as rows:
                rows.execute(f"VACUUM INTO '{path}.snapshot'")
            third = pushed(client, tag="v3", layer=b"three")
            assert client.ask("DELETE", "/v2/acme/one/manifests/v2").status == 202
            by_kill_of_both(server)
        shutil.copytree(path, f"{path}.new")
        os.makedirs(f"{path}.old")
        shutil.copy(f"{path}.snapshot", f"{path}.old/registry.db")
        copy_database(f"{path}.old", path)
        check(ended("--data", path), 8, LOST, "registry.db is older than the log", "of its transactions are lost", ACCEPT)
        for end in ("", "-wal"):
            shutil.copy(f"{path}.new/registry.db{end}", path)
        has_images(path, ("v1", first), ("v3", third))
        copy_database(f"{path}.old", path)
        with serving("--data", path, "--accept-loss") as server:
            assert tags_of(server.client(), "acme/one") == ["v1", "v2"]
            by_signal(server)
        with serving("--data", path) as server:
            by_signal(server)


def a_backup_in_a_new_folder():
    """The database of a backup is older than its log, and that is right (docs/BACKUP.md)."""
    with folder() as path:
        first = image_of(path, "v1", b"one")
        shutil.copytree(path, f"{path}.old")
        image_of(path, "v2", b"two")
        os.makedirs(f"{path}.restored")
        copy_database(f"{path}.old", f"{path}.restored")
        copy_log(path, f"{path}.restored")
        has_images(f"{path}.restored", ("v1", first))


def a_folder_without_syncs():
    """A loss of power may leave a part of it, so a start goes on, and says so. The next one with syncs checks again."""
    never = ("--sync", "never")
    with folder() as path:
        first = image_of(path, "v1", b"one", never)
        shutil.copytree(path, f"{path}.old")
        image_of(path, "v2", b"two", never)
        shutil.copytree(path, f"{path}.new")
        for words in (never, ()):
            copy_log(f"{path}.old", path)
            copy_database(f"{path}.new", path)
            said = has_images(path, ("v1", first), words=words)
            assert "a crash may leave this after a start with --sync never: the store does not have 1 manifests" in said, said
        image_of(path, "v3", b"three")
        copy_log(f"{path}.old", path)
        check(ended("--data", path), 8, LOST)


def a_folder_without_syncs_that_loses_its_database():
    """A loss of power may take the transactions of the database, or all of it. The mark of the policy is on the disk before the first reply, so a
    start goes on. Its mark is gone afterwards."""
    with folder() as path:
        first = image_of(path, "v1", b"one")
        shutil.copytree(path, f"{path}.old")
        with serving("--data", path, "--sync", "never") as server:
            assert os.path.exists(f"{path}/{MARK}")
            pushed(server.client(), tag="v2", layer=b"two")
            by_kill_of_both(server)
        shutil.copytree(path, f"{path}.new")
        copy_database(f"{path}.old", path)
        said = has_images(path, ("v1", first))
        assert "a crash may leave this after a start with --sync never: registry.db is older than the log" in said, said
        assert not os.path.exists(f"{path}/{MARK}")
        remove_database(f"{path}.new")
        with serving("--data", f"{path}.new") as server:
            assert pulled(server.client(), "acme/one", "v1") == 404
            assert "after a start with --sync never: registry.db is missing or empty" in server.logged()
            by_signal(server)
        remove_database(f"{path}.new")
        check(ended("--data", f"{path}.new"), 8, LOST, "registry.db is missing or empty")


def main():
    play("losses", [
        an_older_log, an_older_log_without_blobs, manifests_that_the_store_lacks, files_of_the_log_that_are_missing,
        a_rewritten_log_is_not_older, a_start_that_is_interrupted_may_have_cut_the_log, the_log_of_another_store, a_database_that_is_gone, an_older_database, a_backup_in_a_new_folder,
        a_folder_without_syncs, a_folder_without_syncs_that_loses_its_database])


if __name__ == "__main__":
    main()
