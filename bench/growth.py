#!/usr/bin/env python3
"""Measures the cost of a row as the store grows.

Each workload is a script of at most 65,536 rows, generated at a quarter, a half and its full size, and run by
blobctl. The output has the processor time of a row in microseconds at the three sizes, and the ratio of the last
to the first. The ratio is near 1 if the cost does not grow.

    bench/growth.py [--runs N] [WORKLOAD..]
"""
import argparse

from play import row, seconds, sha256

QUOTA = 1 << 40


def content(number):
    return f"b{number}".encode()


def upload(repo, session, number):
    """Returns two rows that store one small blob made of this number."""
    body = content(number)
    return row("start", repo) + row("close", repo, session, sha256(body), "", body.decode())


class Sessions:
    """The next session number of each tenant."""

    def __init__(self):
        self.next = {}

    def of(self, tenant):
        self.next[tenant] = self.next.get(tenant, 0) + 1
        return self.next[tenant]


def blobs(count):
    """Stores `count` blobs in one repository."""
    return ["acme"], [upload("acme/one", i + 1, i) for i in range(count)]


def spread(count):
    """Stores `count` blobs in 1,000 repositories of one tenant."""
    return ["acme"], [upload(f"acme/r{i % 1000}", i + 1, i) for i in range(count)]


def mounts(count):
    """Stores `count` blobs, mounts each into a second repository, and deletes half of the mounts."""
    rows = [upload("acme/one", i + 1, i) for i in range(count)]
    rows += [row("mount", "acme/two", "acme/one", sha256(content(i))) for i in range(count)]
    rows += [row("delete", "acme/two", "", sha256(content(i))) for i in range(0, count, 2)]
    return ["acme"], rows


def sessions(count):
    """Opens 64 sessions of each of `count / 64` tenants, and calls `status` three times for each session."""
    tenants = [f"t{i}" for i in range(count // 64)]
    rows = [row("start", f"{tenant}/r") for tenant in tenants for _ in range(64)]
    names = [(tenant, number) for number in range(1, 65) for tenant in tenants]
    rows += [row("status", f"{tenant}/r", number) for _ in range(3) for tenant, number in names]
    return tenants, rows[:65536]


def repos(count):
    """Makes `count` repositories of 128 tenants, each by `start` and `abandon`."""
    tenants = [f"t{i}" for i in range(128)]
    numbers, rows = Sessions(), []
    for i in range(count):
        tenant = tenants[i % 128]
        repo, number = f"{tenant}/r{i // 128}", numbers.of(tenant)
        rows += [row("start", repo) + row("abandon", repo, number)]
    return tenants, rows


def mixed(count):
    """Takes `count` turns of 256 tenants: an upload, a mount, and the delete of an older mount."""
    tenants = [f"t{i}" for i in range(256)]
    numbers, rows = Sessions(), []
    for i in range(count):
        tenant = tenants[i % 256]
        rows.append(upload(f"{tenant}/one", numbers.of(tenant), i))
        rows.append(row("mount", f"{tenant}/two", f"{tenant}/one", sha256(content(i))))
        if i >= 512:
            old = i - 512
            rows.append(row("delete", f"{tenant}/two", "", sha256(content(old))))
    return tenants, rows


def image(numbers):
    """Returns an image manifest whose config and layers are the blobs with these numbers."""
    names = [f'{{"digest":"{sha256(content(i))}"}}' for i in numbers]
    return f'{{"schemaVersion":2,"config":{names[0]},"layers":[{",".join(names[1:])}]}}'


def quoted(text):
    return '"' + text.replace('"', '""') + '"'


def manifests(count):
    """Puts `count` manifests of nine references, 1,000 in a repository. Each is read, and the delete of one of its
    blobs fails."""
    numbers, rows = Sessions(), []
    for first in range(0, count, 1000):
        repo = f"acme/r{first // 1000}"
        mine = range(first, first + 100)
        rows += [upload(repo, numbers.of("acme"), i) for i in mine]
        for i in range(min(1000, count - first)):
            picked = [mine[(i + step * (1 + i // 100)) % 100] for step in range(9)]
            text = image(picked)
            rows.append(row("put_manifest", repo, "", "", "", quoted(text)))
            rows.append(row("get_manifest", repo, "", sha256(text.encode())))
            rows.append(row("delete", repo, "", sha256(content(picked[3]))))
    return ["acme"], rows


WORKLOADS = {
    "blobs": (blobs, 32000),
    "spread": (spread, 32000),
    "mounts": (mounts, 16000),
    "sessions": (sessions, 16384),
    "repos": (repos, 32000),
    "mixed": (mixed, 16000),
    "manifests": (manifests, 16000),
}


def microseconds(make, count, runs):
    tenants, rows = make(count)
    script = "".join(rows)
    words = ["--slots", "65536", *(f"{tenant}={QUOTA}" for tenant in tenants)]
    return seconds(words, script.encode(), runs) * 1e6 / script.count("\n")


def main():
    words = argparse.ArgumentParser(description=__doc__, formatter_class=argparse.RawDescriptionHelpFormatter)
    words.add_argument("--runs", type=int, default=3, help="number of runs; the minimum counts (3)")
    words.add_argument("workload", nargs="*", default=list(WORKLOADS))
    options = words.parse_args()
    print(f"{'workload':<10} {'quarter':>8} {'half':>8} {'full':>8}   full / quarter")
    for name in options.workload:
        make, full = WORKLOADS[name]
        times = [microseconds(make, full // part, options.runs) for part in (4, 2, 1)]
        print(f"{name:<10} {times[0]:8.2f} {times[1]:8.2f} {times[2]:8.2f}   {times[2] / times[0]:.2f}", flush=True)


if __name__ == "__main__":
    main()
