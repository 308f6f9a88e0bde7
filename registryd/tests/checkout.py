#!/usr/bin/env python3
"""Tests which blobd `registryd/run` takes: in a copy of its scripts, with stubs for the toolchain and for the programs."""
import contextlib, hashlib, json, os, shutil, subprocess, tempfile, time

from playing import play, until
from server import TOP

STUBS = {
    # Prints what it was started with. It goes on while the file `hold` is there.
    "stub": '''#!/bin/sh
echo "$@"
while [ -e "$(dirname "$0")/hold" ]; do sleep 0.02; done
''',
    "registryd/build": '''#!/bin/sh
echo "build$BUILD_STEP" >> "$(dirname "$0")/../steps"
echo "$(dirname "$0")/../stub"
''',
    # With the file `slow`, it takes longer than a proof that fails.
    "package/unproved": '''#!/bin/sh
echo "unproved$BUILD_STEP" >> "${0%/*}/../steps"
[ ! -e "${0%/*}/../slow" ] || sleep 3
mkdir -p "${1%/*}"
echo unproved > "$1"
chmod +x "$1"
"${0%/*}/sources" > "$1.sources"
echo built
''',
    # A proof ends when the file `go` is there, and fails without the file `provable`.
    "bin/rt": '''#!/bin/sh
case $1 in
version) cat "$(dirname "$0")/version" ;;
*)
    top=$PWD/../..
    echo $$ $(nice) > "$top/proving"
    while [ -e "$top" ] && [ ! -e "$top/go" ]; do sleep 0.02; done
    [ -e "$top/provable" ] || exit 1
    echo proved > out/blobd
    chmod +x out/blobd ;;
esac
''',
    "bin/version": "kit 1\n", "crates/blobd/src/main.rt": "1\n", "crates/blobd/README.md": "1\n", "crates.txt": "blobd:\n", "HANDLES": "\n",
    "go": "", "provable": "", ".gitignore": "out/\ntarget/\nsteps\nproving\n",
}


# A toolchain whose `rt try` takes three seconds.
TOOLCHAIN = {
    "bin/rt": '''#!/bin/sh
case $1 in
doc) echo "$(dirname "$(dirname "$0")")/page" ;;
version) echo kit 1 ;;
try)
    sleep 3
    mkdir "$TMPDIR/try"
    echo compiled > "$TMPDIR/try/program"
    exec cat < "$7" > "$8" ;;
esac
''',
    "bin/rtlib.py": "", "toolchain/bin/clang": "",
}


class Checkout:
    def __init__(self, top):
        self.top = top
        for path, text in STUBS.items():
            os.makedirs(os.path.dirname(f"{top}/{path}"), exist_ok=True)
            with open(f"{top}/{path}", "w") as file:
                file.write(text)
            os.chmod(f"{top}/{path}", 0o755)
        os.makedirs(f"{top}/package/man")
        for path in ("registryd/run", "package/sources", "package/is-proved", "package/record", "package/manual", "package/man/registryd.1"):
            shutil.copy(f"{os.path.dirname(TOP)}/{path}", f"{top}/{path}")
        os.makedirs(f"{top}/crates/blobd/out")
        self.git("init", "--quiet")
        self.commit()
        self.proved, self.unproved = f"{top}/crates/blobd/out/blobd", f"{top}/registryd/target/not-verified/blobd"

    def git(self, *words):
        subprocess.run(["git", "-C", self.top, "-c", "user.name=a", "-c", "user.email=a@b", *words], check=True)

    def commit(self):
        self.git("add", "--all")
        self.git("commit", "--quiet", "--message", "x")

    def write(self, path, text):
        with open(f"{self.top}/{path}", "w") as file:
            file.write(text)

    def started(self, *words, path=None, errors=subprocess.PIPE):
        """Starts a registry."""
        environment = {**os.environ, "PATH": path or f"{self.top}/bin:{os.environ['PATH']}"}
        return subprocess.Popen([f"{self.top}/registryd/run", *words], env=environment, stdin=subprocess.DEVNULL, stdout=subprocess.PIPE,
                                stderr=errors, text=True)

    def run(self, *words, status=0, **options):
        """Returns the arguments that registryd got, and what was written to standard error."""
        process = self.started(*words, **options)
        said, errors = process.communicate(timeout=60)
        assert process.returncode == status, (process.returncode, errors)
        return said.split(), errors

    def proof(self):
        """Returns the process and the niceness of the proof in the background."""
        assert until(lambda: os.path.exists(f"{self.top}/proving") and os.path.getsize(f"{self.top}/proving")), "no proof begins"
        with open(f"{self.top}/proving") as file:
            return [int(word) for word in file.read().split()]

    def record(self):
        with open(f"{self.proved}.proved") as file:
            return dict(line.rstrip("\n").split(" ", 1) for line in file)

    def is_recorded(self):
        return os.path.exists(f"{self.proved}.proved")


@contextlib.contextmanager
def checkout():
    # A proof in the background may still write.
    with tempfile.TemporaryDirectory(ignore_cleanup_errors=True) as top:
        made = Checkout(os.path.realpath(top))
        try:
            yield made
        finally:
            # The proof in the background ends.
            made.write("go", "")


def a_start_serves_before_the_proof_ends():
    with checkout() as made:
        os.remove(f"{made.top}/go")
        for said in ("built", ""):
            words, errors = made.run("--keep-proving", "--slots", "1", "acme=1")
            assert words == ["--blobd", made.unproved, "--slots", "1", "acme=1"] and "NOT VERIFIED" in errors, (words, errors)
            assert ("built" in errors) == bool(said), errors
        made.write("go", "")
        assert until(made.is_recorded, 60)
        # The second proof is over too when the program stays as it is.
        assert until(lambda: made.run("acme=1") == (["--blobd", made.proved, "acme=1"], ""), 60)


def the_record_names_program_sources_and_commit():
    with checkout() as made:
        made.run("--prove", "acme=1")
        record = made.record()
        assert record["sha256"] == hashlib.sha256(b"proved\n").hexdigest() and record["proved-by"] == "rt run" and record["toolchain"] == "kit 1"
        head = subprocess.run(["git", "-C", made.top, "rev-parse", "HEAD"], stdout=subprocess.PIPE, text=True).stdout.strip()
        assert record["commit"] == head
        # A commit that changes nothing that the proof reads changes nothing here.
        made.write("README", "x")
        made.write("crates/blobd/README.md", "x")
        made.commit()
        assert made.run("acme=1")[0][1] == made.proved
        os.remove(f"{made.top}/provable")
        made.write("crates/blobd/out/blobd", "another\n")
        assert made.run("acme=1")[0][1] == made.unproved


def changed_sources_are_not_proved():
    with checkout() as made:
        assert made.run("--prove", "acme=1")[0] == ["--blobd", made.proved, "acme=1"]
        made.write("crates/blobd/src/main.rt", "2\n")
        os.remove(f"{made.top}/provable")
        assert made.run("acme=1")[0][1] == made.unproved
        made.commit()
        assert made.run("acme=1")[0][1] == made.unproved
        made.write("provable", "")
        # Sources that are not committed have a name too.
        made.write("crates/blobd/src/main.rt", "3\n")
        assert made.run("--prove", "acme=1")[0] == made.run("acme=1")[0] == ["--blobd", made.proved, "acme=1"]
        assert made.record()["commit"].endswith("-dirty")
        # A program of another toolchain is not taken.
        made.write("bin/version", "kit 2\n")
        os.remove(f"{made.top}/provable")
        assert made.run("acme=1")[0][1] == made.unproved


def each_edit_is_built():
    """Also if it is not committed, and without git."""
    with checkout() as made:
        os.remove(f"{made.top}/provable")
        for edit in range(4):
            if edit == 2:
                shutil.rmtree(f"{made.top}/.git")
            made.write("crates/blobd/src/main.rt", f"edit {edit}\n")
            assert "built" in made.run("acme=1")[1], edit
            assert "built" not in made.run("acme=1")[1], edit


def what_has_no_name_is_not_taken():
    with checkout() as made:
        os.remove(f"{made.top}/provable")
        made.run("acme=1")
        made.write("registryd/target/not-verified/blobd.sources", "")
        assert "built" in made.run("acme=1")[1]
        # The second start has an empty name and a build whose name is empty.
        made.write("bin/version", "")
        for _ in range(2):
            assert "built" in made.run("acme=1")[1]


def the_record_needs_no_git():
    with checkout() as made:
        shutil.rmtree(f"{made.top}/.git")
        assert made.run("--prove", "acme=1")[0] == made.run("acme=1")[0] == ["--blobd", made.proved, "acme=1"]
        assert made.record()["commit"] == "unknown"


def a_proof_in_the_background_ends_with_the_registry():
    with checkout() as made, tempfile.NamedTemporaryFile("w+") as errors:
        os.remove(f"{made.top}/go")
        made.write("hold", "")
        registry = made.started("acme=1", errors=errors)
        try:
            pid, niceness = made.proof()
            assert niceness == 19
            said = lambda: (errors.seek(0), errors.read())[1]
            assert until(lambda: "NOT VERIFIED until its proof ends" in said()), said()
            assert not has_ended(pid)
        finally:
            registry.kill()
            registry.communicate()
        assert until(lambda: has_ended(pid), 20), "the proof goes on"
        with open(f"{made.top}/crates/blobd/out/proof.log") as log:
            assert "the proof ends with the registry" in log.read()


def a_proof_goes_on_if_it_shall():
    with checkout() as made:
        os.remove(f"{made.top}/go")
        made.run("--keep-proving", "acme=1")
        pid, _ = made.proof()
        time.sleep(1.5)
        assert not has_ended(pid)


def a_proof_that_has_ended_is_not_waited_for():
    with checkout() as made:
        os.remove(f"{made.top}/provable")
        made.write("slow", "")
        errors = made.run("acme=1")[1]
        assert "NOT VERIFIED, and its proof has ended" in errors and "until" not in errors, errors


def has_ended(pid):
    with contextlib.suppress(FileNotFoundError):
        with open(f"/proc/{pid}/stat") as file:
            return file.read().split()[2] == "Z"
    return True


def nothing_is_built_for_help_and_little_for_a_given_program():
    with checkout() as made:
        os.remove(f"{made.top}/go")
        for word in ("--help", "-h"):
            text = " ".join(made.run("acme=1", word)[0])
            assert "--keep-proving" in text and "--listen ADDR:PORT Listen on this address." in text, text
        assert not os.path.exists(f"{made.top}/steps"), "something is built"
        assert made.run("--blobd", "/x/blobd", "acme=1")[0] == ["--blobd", "/x/blobd", "acme=1"]
        assert made.run("--version")[0] == ["--blobd", made.unproved, "--version"]
        assert not os.path.exists(made.unproved) and not os.listdir(f"{made.top}/crates/blobd/out")


def a_missing_program_is_named_before_anything_is_built():
    with checkout() as made:
        # Debian's programs alone.
        errors = made.run("acme=1", status=3, path="/usr/bin:/bin")[1]
        assert "rt: not installed: " in errors and "docs/OPERATIONS.md" in errors, errors
        assert not os.path.exists(f"{made.top}/steps") and not os.listdir(f"{made.top}/crates/blobd/out"), "something is built"


def a_first_start_counts_its_steps():
    with checkout() as made:
        os.remove(f"{made.top}/provable")
        for expected in ("build, 1 of 2\nunproved, 2 of 2\n", "build\n"):
            made.write("steps", "")
            made.run("acme=1")
            with open(f"{made.top}/steps") as file:
                assert file.read() == expected, expected


def the_tests_find_a_program_of_the_store():
    """The C example is a stub, and registryd cannot be built."""
    with checkout() as made:
        os.makedirs(f"{made.top}/bindings/c")
        shutil.copy(f"{TOP}/check", f"{made.top}/registryd/check")
        for path, text in (("bindings/c/example.c", "int main(void) { return 0; }\n"), ("bindings/c/blobd.c", ""), ("bindings/c/example.txt", "")):
            made.write(path, text)
        made.write("registryd/build", "#!/bin/sh\nexit 3\n")
        def check(**more):
            environment = {**os.environ, "PATH": f"{made.top}/bin:{os.environ['PATH']}", "BLOBD": "", **more}
            done = subprocess.run([f"{made.top}/registryd/check"], env=environment, stdout=subprocess.PIPE, stderr=subprocess.STDOUT, text=True, timeout=60)
            assert done.returncode == 0, done.stdout
            return done.stdout
        said = check()
        assert "built\n" in said and f"NOT VERIFIED: {made.unproved}" in said, said
        made.write("registryd/build", STUBS["registryd/build"])
        made.run("--prove", "acme=1")
        made.write("registryd/build", "#!/bin/sh\nexit 3\n")
        assert "NOT VERIFIED" not in check() and "built\n" not in check()
        assert f"NOT VERIFIED: {made.unproved}" in check(BLOBD=made.unproved)


def a_long_build_of_registryd_says_how_far_it_is():
    def artifact(name, kind="lib"):
        return json.dumps({"reason": "compiler-artifact", "package_id": name, "target": {"kind": [kind]}}) + "\n"
    reader = subprocess.Popen([f"{TOP}/progress", "building registryd, 1 of 2", "109"], stdin=subprocess.PIPE, stderr=subprocess.PIPE, text=True)
    # A build script is no crate, nor is another line.
    reader.stdin.write(artifact("a") + artifact("b", "custom-build") + artifact("b") + "no message\n")
    reader.stdin.flush()
    assert reader.stderr.readline() == "registryd/build: building registryd, 1 of 2: 2 of 109 crates\n"
    assert reader.communicate(artifact("c"), timeout=20)[1] == "" and reader.returncode == 0


def a_build_without_proof_says_how_long_it_takes():
    with tempfile.TemporaryDirectory() as folder:
        for path, text in TOOLCHAIN.items():
            os.makedirs(os.path.dirname(f"{folder}/{path}"), exist_ok=True)
            with open(f"{folder}/{path}", "w") as file:
                file.write(text)
            os.chmod(f"{folder}/{path}", 0o755)
        environment = {**os.environ, "PATH": f"{folder}/bin:{os.environ['PATH']}", "BUILD_STEP": ", 2 of 2"}
        # The second call finds the program built.
        for said in ("package/unproved: building blobd without its proof, 2 of 2: 2 s so far\n", ""):
            done = subprocess.run([f"{os.path.dirname(TOP)}/package/unproved", f"{folder}/out/blobd"], env=environment, stderr=subprocess.PIPE,
                                  text=True, timeout=60)
            assert (done.returncode, done.stderr) == (0, said), done
        with open(f"{folder}/out/blobd") as program, open(f"{folder}/out/blobd.sources") as sources:
            assert program.read() == "compiled\n" and len(sources.read()) == 65


def main():
    play("checkout", [
        a_start_serves_before_the_proof_ends, the_record_names_program_sources_and_commit, changed_sources_are_not_proved,
        each_edit_is_built, what_has_no_name_is_not_taken, the_record_needs_no_git, a_proof_in_the_background_ends_with_the_registry,
        a_proof_goes_on_if_it_shall, a_proof_that_has_ended_is_not_waited_for, nothing_is_built_for_help_and_little_for_a_given_program,
        a_missing_program_is_named_before_anything_is_built, a_first_start_counts_its_steps, the_tests_find_a_program_of_the_store, a_long_build_of_registryd_says_how_far_it_is,
        a_build_without_proof_says_how_long_it_takes])


if __name__ == "__main__":
    main()
