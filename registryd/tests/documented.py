"""The commands of a document, and a shell that types them in a folder of the test."""
import os, re, subprocess, textwrap

from server import BLOBD, Client, REGISTRYD, TOP


def blocks(document, heading, language="sh"):
    """Returns the blocks of a language below a heading, up to the next heading."""
    with open(f"{os.path.dirname(TOP)}/{document}") as file:
        section = re.split(r"^##+ ", file.read().split(f"# {heading}\n")[1], flags=re.MULTILINE)[0]
    return [textwrap.dedent(block) for block in re.findall(rf"^ *```{language}\n(.*?)^ *```$", section, re.MULTILINE | re.DOTALL)]


class Shell:
    """Runs blocks of commands in a folder. Other words replace those that name what only a test has."""

    def __init__(self, folder, words=(), environment=()):
        self.folder, self.environment = folder, {**os.environ, **dict(environment)}
        for top in ("srv", "backup"):
            os.makedirs(f"{folder}/{top}", exist_ok=True)
        # The package's program is that of this checkout. There is no service, and no user of its own.
        self.words = {"registryd/run": f"{TOP}/run", "registryd --data": f"{TOP}/run --data", "systemctl ": ": ",
                      "registryd contents": f"{REGISTRYD} contents",
                      "chown -R registryd:registryd": "chown -R 0:0", **dict(words)}

    def replaced(self, text):
        # Paths of this machine; a colon precedes those of another. The service's folder is one of them.
        text = re.sub(r"(?<![\w:])/var/lib/registryd\b", "/srv/registry", text)
        text = re.sub(r"(?<![\w:])/(srv|backup)/", rf"{self.folder}/\1/", text)
        for old, new in self.words.items():
            text = text.replace(old, new)
        return text

    def type(self, block):
        """Runs a block. Fails if one of its commands fails."""
        ended = subprocess.run(["bash", "-euo", "pipefail", "-c", self.replaced(block)], cwd=self.folder, env=self.environment,
                               stdin=subprocess.DEVNULL, stdout=subprocess.PIPE, stderr=subprocess.STDOUT, text=True, timeout=300)
        assert ended.returncode == 0, f"{block}: {ended.stdout[-2000:]}"
        return ended.stdout

    def start(self, block, address, *options):
        """Runs a block whose last line starts a registry, which gets more options. Waits until it replies."""
        *before, last = self.replaced(block).rstrip().splitlines()
        last = " ".join(["exec", last, "--listen", address, "--blobd", BLOBD, "--lines", "8", *options])
        process = subprocess.Popen(["bash", "-euo", "pipefail", "-c", "\n".join([*before, last])], cwd=self.folder,
                                   env=self.environment, stderr=subprocess.DEVNULL)
        return Started(process, address)


class Started:
    """A registry that a shell started."""

    def __init__(self, process, address):
        self.process, self.address = process, address

    def wait(self):
        from playing import until
        def replies():
            assert self.process.poll() is None, "it has ended"
            try:
                return Client(self.address).ask("GET", "/v2/").status == 200
            except OSError:
                return False
        assert until(replies, 120), "it does not reply"
        return Client(self.address)

    def end(self):
        self.process.terminate()
        return self.process.wait(timeout=60)
