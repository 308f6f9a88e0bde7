#!/usr/bin/env python3
"""Tests the versions of the package: each commit's is greater than those of its ancestors, as dpkg compares them. Tests its documents: each
link leads to a file of the package, and to a heading of it if it names one."""
import contextlib, os, re, shutil, subprocess, tempfile

from playing import play
from server import TOP


def run(*words, **options):
    return subprocess.run(words, stdout=subprocess.PIPE, stderr=subprocess.PIPE, text=True, **options)


class Repository:
    """A repository with package/version, and with no other file of the product but that which names the version of registryd."""

    def __init__(self, top):
        self.top = top
        for path in ("package/version", "registryd/Cargo.toml"):
            os.makedirs(os.path.dirname(f"{top}/{path}"))
            shutil.copy(f"{os.path.dirname(TOP)}/{path}", f"{top}/{path}")
        self.git("init", "--quiet")

    def git(self, *words):
        done = run("git", "-C", self.top, "-c", "user.name=a", "-c", "user.email=a@b", *words)
        assert done.returncode == 0, done.stderr
        return done.stdout.strip()

    def commit(self, text):
        with open(f"{self.top}/text", "w") as file:
            file.write(text)
        self.git("add", "--all")
        self.git("commit", "--quiet", "--message", text)

    def version(self):
        done = run(f"{self.top}/package/version")
        assert done.returncode == 0, done.stderr
        return done.stdout.strip()

    def set_release(self, release):
        path = f"{self.top}/registryd/Cargo.toml"
        with open(path) as file:
            text = re.sub(r'^version = ".*"$', f'version = "{release}"', file.read(), count=1, flags=re.MULTILINE)
        with open(path, "w") as file:
            file.write(text)


@contextlib.contextmanager
def repository():
    with tempfile.TemporaryDirectory() as top:
        yield Repository(top)


def each_commit_has_a_greater_version():
    with repository() as made:
        before = "0.1.0"
        made.set_release(before)
        # The names of ten commits are in no order.
        for number in range(10):
            made.commit(str(number))
            version = made.version()
            assert version == f"0.1.0+{number + 1}.g{made.git('rev-parse', '--short=12', 'HEAD')}", version
            assert run("dpkg", "--compare-versions", version, "gt", before).returncode == 0, (version, before)
            before = version


def a_release_has_a_greater_version():
    """Than all commits before it, and each commit after it has a greater one."""
    with repository() as made:
        before = "0"
        for number, release in enumerate(("0.1.0", "0.2.0", "0.10.0", "1.0.0")):
            made.set_release(release)
            for change in ("release", "after"):
                made.commit(f"{number} {change}")
                version = made.version()
                assert version.startswith(f"{release}+") and run("dpkg", "--compare-versions", version, "gt", before).returncode == 0, (version, before)
                before = version


def a_change_that_is_not_committed_is_marked():
    with repository() as made:
        made.commit("1")
        version = made.version()
        with open(f"{made.top}/text", "w") as file:
            file.write("2")
        assert made.version() == f"{version}.dirty"
        made.commit("2")
        assert run("dpkg", "--compare-versions", made.version(), "gt", f"{version}.dirty").returncode == 0


def commits_that_cannot_be_counted_count_as_none():
    with repository() as made, tempfile.TemporaryDirectory() as folder:
        made.commit("1")
        made.commit("2")
        assert run("git", "clone", "--quiet", "--depth", "1", f"file://{made.top}", f"{folder}/clone").returncode == 0
        done = run(f"{folder}/clone/package/version")
        assert done.returncode == 0 and "git fetch --unshallow" in done.stderr, done
        assert re.fullmatch(r"\S+\+0\.g[0-9a-f]{12}\.shallow\n", done.stdout), done
        shutil.rmtree(f"{folder}/clone/.git")
        done = run(f"{folder}/clone/package/version")
        assert done.returncode == 1 and "no git repository" in done.stderr, done


def anchors(path):
    with open(path) as file:
        headings = re.findall(r"^#+ (.*)$", file.read(), re.MULTILINE)
    return {re.sub(r"[^\w\- ]", "", heading.lower()).replace(" ", "-") for heading in headings}


def each_link_of_the_documents_leads_to_a_file():
    with tempfile.TemporaryDirectory() as folder:
        assert run(f"{os.path.dirname(TOP)}/package/pages", folder).returncode == 0
        pages = [name for name in os.listdir(folder) if name.endswith(".md")]
        assert {"OPERATIONS.md", "USERS.md", "STORAGE.md", "SERVING.md", "BACKUP.md", "MACHINES.md", "UPGRADES.md", "LOG.md", "PROTOCOL.md", "SCRIPT.md",
                "SEMANTICS.md", "THEOREMS.md"} <= set(pages), pages
        for page in pages:
            with open(f"{folder}/{page}") as file:
                text = re.sub(r"^ *```.*?^ *```$", "", file.read(), flags=re.MULTILINE | re.DOTALL)
            for target in re.findall(r"\]\(([^)\s]+)\)", text):
                path, _, fragment = target.partition("#")
                path = f"{folder}/{path or page}"
                if re.match(r"[a-z]+:", target) or target == "/usr/lib/systemd/system/registryd.service":
                    continue
                assert os.path.isfile(path) and (not fragment or fragment in anchors(path)), (page, target)


def main():
    play("packaging", [each_commit_has_a_greater_version, a_release_has_a_greater_version, a_change_that_is_not_committed_is_marked, commits_that_cannot_be_counted_count_as_none,
                       each_link_of_the_documents_leads_to_a_file])


if __name__ == "__main__":
    main()
