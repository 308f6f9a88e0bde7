#!/usr/bin/env python3
"""Runs test scripts side by side. Standard input has a line for each: `together COMMAND` or `alone COMMAND`. Those of the first kind start
in the order of the lines, N at a time. Then those of the second kind run, one after the other. Each output is printed whole, in the order of
the lines of a kind, with the time that the script took.

The status is 1 if a script failed or took too long, and 3 if none failed but one ended with status 3: it cannot run here. A script that
failed is named at the end."""
import argparse, collections, contextlib, os, signal, subprocess, sys, tempfile, time

LEFT_OUT = 3
# The seconds for which the programs of a script may go on after SIGTERM.
GRACE = 10


class Script:
    """A command, in a session of its own, and what it writes."""

    def __init__(self, command):
        self.command, self.output, self.begun = command, tempfile.TemporaryFile(), time.monotonic()
        self.process = subprocess.Popen(["bash", "-c", command], start_new_session=True, stdin=subprocess.DEVNULL, stdout=self.output,
                                        stderr=subprocess.STDOUT)
        self.status = self.seconds = self.processor = self.late = None

    def has_ended(self):
        """Returns whether the command has ended, and notes its times."""
        if self.status is None:
            pid, status, used = os.wait4(self.process.pid, os.WNOHANG)
            if pid == 0:
                return False
            self.status = self.process.returncode = os.waitstatus_to_exitcode(status)
            self.seconds, self.processor = time.monotonic() - self.begun, used.ru_utime + used.ru_stime
        return True

    def end(self):
        """Ends the command, and all programs of its session's process group."""
        for number in (signal.SIGTERM, signal.SIGKILL):
            with contextlib.suppress(ProcessLookupError):
                os.killpg(self.process.pid, number)
            end = time.monotonic() + GRACE
            while not self.has_ended() and time.monotonic() < end:
                time.sleep(0.02)

    def prints(self):
        """Prints the output and the times. Returns the status."""
        self.output.seek(0)
        sys.stdout.write(self.output.read().decode(errors="replace"))
        status = "" if self.status == 0 else f"status {self.status}, "
        if self.late:
            status = f"ended, because it took more than {self.late} s, "
        print(f"== {self.command}: {status}{self.seconds:.1f} s, {self.processor:.1f} s of processor time", flush=True)
        return 1 if self.late else self.status


def run(commands, jobs, seconds):
    """Runs commands, `jobs` at a time. Returns the status of each."""
    waiting, shown, running, statuses = collections.deque(commands), collections.deque(), [], {}
    try:
        while waiting or shown:
            while waiting and len(running) < jobs:
                running.append(Script(waiting.popleft()))
                shown.append(running[-1])
            for script in running:
                if not script.has_ended() and time.monotonic() - script.begun > seconds:
                    script.end()
                    script.late = seconds
            running = [script for script in running if not script.has_ended()]
            while shown and shown[0].has_ended():
                script = shown.popleft()
                statuses[script.command] = script.prints()
            time.sleep(0.02)
    finally:
        for script in running:
            script.end()
    return statuses


def main():
    # A signal ends the scripts too.
    signal.signal(signal.SIGTERM, lambda number, _: sys.exit(128 + number))
    parser = argparse.ArgumentParser(description=__doc__, formatter_class=argparse.RawDescriptionHelpFormatter)
    parser.add_argument("--jobs", type=int, default=len(os.sched_getaffinity(0)), metavar="N", help="run N scripts at a time [default: cores]")
    parser.add_argument("--seconds", type=int, default=900, metavar="S", help="end a script after S seconds [default: 900]")
    options = parser.parse_args()
    lines = [line.split(maxsplit=1) for line in sys.stdin if line.strip()]
    of = lambda kind: [command.strip() for word, command in lines if word == kind]
    together, alone = of("together"), of("alone")
    if options.jobs < 1 or len(together) + len(alone) != len(lines) or len({*together, *alone}) != len(lines):
        parser.error("--jobs takes a number from 1, and each line is `together COMMAND` or `alone COMMAND`, with a command of its own")
    statuses = {**run(together, options.jobs, options.seconds), **run(alone, 1, options.seconds)}
    for command, status in statuses.items():
        if status == LEFT_OUT:
            print(f"left out: {command} (it cannot be started here)")
        elif status != 0:
            print(f"failed: {command}")
    failed = any(status not in (0, LEFT_OUT) for status in statuses.values())
    sys.exit(1 if failed else LEFT_OUT if LEFT_OUT in statuses.values() else 0)


if __name__ == "__main__":
    main()
