#!/usr/bin/env python3
"""Tests how `side_by_side.py` runs the scripts of `registryd/check`: what runs at the same time, in which order outputs are printed, what
a failure, a script that cannot run here, a script that hangs and a signal do."""
import os, re, signal, subprocess, tempfile, time

from playing import play, until

PROGRAM = os.path.join(os.path.dirname(os.path.abspath(__file__)), "side_by_side.py")


def scheduled(*lines, words=(), folder=None):
    """Runs lines, and returns the status and the output without times."""
    done = subprocess.run([PROGRAM, *words], input="".join(f"{line}\n" for line in lines), cwd=folder, stdout=subprocess.PIPE,
                          stderr=subprocess.STDOUT, text=True, timeout=60)
    return done.returncode, re.sub(r"[0-9.]+ s(, [0-9.]+ s of processor time)?", "TIME", done.stdout)


def meets(mine, other, then):
    """A command that calls another one once a command of this kind runs at the same time. It fails if none does."""
    return f"together touch {mine}; for _ in $(seq 500); do [ -e {other} ] && {then} && exit; sleep 0.02; done; false"


def scripts_run_together_and_outputs_keep_their_order():
    with tempfile.TemporaryDirectory() as folder:
        # The first one ends last.
        lines = [meets("a", "b", "sleep 0.5 && echo one"), meets("b", "a", "echo two && echo three >&2")]
        status, said = scheduled(*lines, words=["--jobs", "2"], folder=folder)
        assert status == 0 and re.search(r"^one\n== .*\ntwo\nthree\n== ", said), (status, said)


def no_more_scripts_run_than_jobs():
    with tempfile.TemporaryDirectory() as folder:
        held = "together mkdir held && sleep 0.2 && rmdir held && echo "
        assert scheduled(*(f"{held}{n}" for n in range(3)), words=["--jobs", "1"], folder=folder)[0] == 0
        # Those that run alone come last, one after the other.
        held = held.replace("together", "alone")
        lines = [f"{held}3", "together [ ! -e held ] && sleep 0.3 && touch done", f"{held.replace('mkdir', '[ -e done ] && mkdir')}4"]
        status, said = scheduled(*lines, words=["--jobs", "4"], folder=folder)
        assert status == 0 and said.index("touch done") < said.index("\n3\n") < said.index("\n4\n"), said


def a_failure_is_named_and_the_others_run():
    status, said = scheduled("together echo bad; exit 2", "together echo good", "alone exit 3", "alone kill -9 $$")
    assert status == 1 and "bad\n== echo bad; exit 2: status 2, TIME\n" in said and "good\n== echo good: TIME\n" in said, said
    assert said.endswith("failed: echo bad; exit 2\nleft out: exit 3 (it cannot be started here)\nfailed: kill -9 $$\n"), said


def a_script_that_cannot_run_here_is_left_out():
    assert scheduled("together true", "alone exit 3")[0] == 3
    assert scheduled("together true", "alone exit 0")[0] == 0


def a_script_that_hangs_is_ended_with_its_programs():
    with tempfile.TemporaryDirectory() as folder:
        status, said = scheduled("together echo begun; sleep 60 & echo $! > pid; wait", words=["--seconds", "1"], folder=folder)
        assert status == 1 and "begun\n" in said and "ended, because it took more than TIME" in said and "failed: echo begun" in said, said
        assert until(lambda: is_gone(folder)), "its program is still there"


def is_gone(folder):
    with open(f"{folder}/pid") as file:
        path = f"/proc/{int(file.read())}/stat"
    try:
        with open(path) as file:
            return file.read().split()[2] == "Z"
    except FileNotFoundError:
        return True


def a_signal_ends_what_runs():
    with tempfile.TemporaryDirectory() as folder:
        process = subprocess.Popen([PROGRAM], stdin=subprocess.PIPE, cwd=folder)
        process.stdin.write(b"together sleep 60 & echo $! > new; mv new pid; wait\n")
        process.stdin.close()
        assert until(lambda: os.path.exists(f"{folder}/pid"))
        begun = time.time()
        process.send_signal(signal.SIGTERM)
        assert process.wait(timeout=30) == 128 + signal.SIGTERM and time.time() - begun < 20
        assert until(lambda: is_gone(folder)), "its program is still there"


def lines_are_checked():
    for line in ("beside true", "together true\nalone true", "together"):
        assert scheduled(line)[0] not in (0, 3), line


def main():
    play("scheduling", [
        scripts_run_together_and_outputs_keep_their_order, no_more_scripts_run_than_jobs, a_failure_is_named_and_the_others_run,
        a_script_that_cannot_run_here_is_left_out, a_script_that_hangs_is_ended_with_its_programs, a_signal_ends_what_runs, lines_are_checked])


if __name__ == "__main__":
    main()
