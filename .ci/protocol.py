"""Compares the numbers of the protocol of `blobd` (a part of .ci/documents).

The tables of docs/PROTOCOL.md have the number of each command, query and status. The store's code, registryd, the header for C and the
frames of blobd's tests have them too, by hand. Each of these places must have each name with the same number, and no other name. (That the
definitions in `specs/` have the numbers of the store's code is proved.)
"""
import re
import runpy

PAGE = "docs/PROTOCOL.md"

# The files of the store, with the pattern of a name and of its number.
STORE_COMMANDS = [
    ("crates/wire_server/src/command.rt", r"(?P<number>\d+) => Some\(Verb::(?P<name>\w+)\)"),
    ("crates/wire_server/src/query.rt", r"(?P<number>\d+) => Ok\(Some\(Query::(?P<name>\w+)"),
    ("crates/wire_server/src/step.rt", r"const (?P<name>FETCH|LOCATE): u8 = (?P<number>\d+);"),
]
STORE_STATUSES = [
    ("crates/wire_format/src/reply.rt", r"Refusal::(?P<name>\w+)(?: \{[^}]*\})? => write_\w+\((?:alloc, )?out, (?P<number>\d+),"),
    ("crates/wire_server/src/outcome.rt", r"const (?P<name>UNREADABLE|NO_LEASE|NO_COMMAND): u32 = (?P<number>\d+);"),
]
CLIENT = "registryd/src/store/frames.rs"
HEADER = "bindings/c/blobd.h"
FRAMES = "crates/blobd/frames.py"

# Names that a place does without: registryd asks for no number of repositories, and takes the two other statuses for faults.
UNUSED = {CLIENT: {"repo_count", "no_lease", "no_command"}}

# The greeting, as each place writes it.
GREETINGS = {
    PAGE: "`62 6c 6f 62 64 00 01 00`",
    "crates/wire_format/src/greeting.rt": r'b"blobd\0\x01\0"',
    CLIENT: r'b"blobd\0\x01\0"',
    "bindings/c/blobd.c": "{'b', 'l', 'o', 'b', 'd', 0, 1, 0}",
    FRAMES: r'b"blobd\0\1\0"',
}


def read(path):
    with open(path, encoding="utf-8") as source:
        return source.read()


def plain(name):
    """Returns a name in snake case, without the prefix of the header."""
    return re.sub(r"(?<=[a-z0-9])(?=[A-Z])", "_", name).lower().removeprefix("blobd_")


def numbers_in(path, pattern):
    """Returns the numbers that a pattern finds in a file, by their names."""
    return {plain(found["name"]): int(found["number"]) for found in re.finditer(pattern, read(path), re.M)}


def numbers_in_files(files):
    """Returns the numbers that several files have together."""
    return {name: number for path, pattern in files for name, number in numbers_in(path, pattern).items()}


def page_numbers(heading):
    """Returns the numbers in the tables of a section of the page."""
    section = re.search(rf"^## {heading}\n(.*?)(?=^## |\Z)", read(PAGE), re.M | re.S).group(1)
    return {plain(name): int(number) for number, name in re.findall(r"^\| (\d+) \| `(\w+)` \|", section, re.M)}


def header_numbers(enum):
    """Returns the numbers of an enum of the header. A name without a number has that of the name before and one more."""
    body = re.search(rf"enum {enum} \{{(.*?)\}};", read(HEADER), re.S).group(1)
    numbers, number = {}, -1
    for name, explicit in re.findall(r"(\w+)(?: = (-?\d+))?", body):
        number = int(explicit) if explicit else number + 1
        numbers[plain(name)] = number
    return numbers


def frames_numbers(wanted):
    """Returns the numbers of the constants of frames.py that have a wanted name."""
    values = runpy.run_path(FRAMES)
    return {name: values[name.upper()] for name in wanted if name.upper() in values}


def compare(kind, path, wanted, found, fault):
    """Checks that a place has the numbers of the page, and no others."""
    unused = UNUSED.get(path, set())
    for name, number in wanted.items():
        if name in found and found[name] != number:
            fault(f"{path}: another number than in {PAGE}: {kind} {name}: {found[name]} instead of {number}")
        elif name not in found and name not in unused:
            fault(f"{path}: a number of {PAGE} is missing: {kind} {name}: {number}")
    for name in found:
        if name not in wanted:
            fault(f"{PAGE}: a number of {path} is missing: {kind} {name}: {found[name]}")
        elif name in unused:
            fault(f".ci/protocol.py: UNUSED has a name that {path} uses: {kind} {name}")


def check(fault):
    """Checks all places. Returns the number of commands, queries and statuses."""
    commands, statuses = page_numbers("Commands"), page_numbers("Status codes")
    given = {"ok", "lost"}  # success, and a failed connection, which is no reply
    compare("command", "crates/wire_server", commands, numbers_in_files(STORE_COMMANDS), fault)
    compare("status", "crates/wire_format and crates/wire_server", statuses, numbers_in_files(STORE_STATUSES), fault)
    compare("command", CLIENT, commands, numbers_in(CLIENT, r"^    (?P<name>[A-Z]\w+) = (?P<number>\d+),$"), fault)
    compare("status", CLIENT, statuses, numbers_in(CLIENT, r"^            (?P<number>\d+) => Reason::(?P<name>\w+),$"), fault)
    compare("command", HEADER, commands, header_numbers("blobd_command"), fault)
    header = {name: number for name, number in header_numbers("blobd_status").items() if name not in given}
    compare("status", HEADER, statuses, header, fault)
    compare("command", FRAMES, commands, frames_numbers(commands), fault)
    compare("status", FRAMES, statuses, frames_numbers(statuses), fault)
    for path, greeting in GREETINGS.items():
        if greeting not in read(path):
            fault(f"{path}: does not have the greeting of {PAGE}: {greeting}")
    return len(commands) + len(statuses)
