"""Compares the numbers and lists that documents have of the tree with the tree (a part of .ci/documents).

FIGURES lists each number: its document, a phrase with an N in its place, and what counts it. Digits or words, the number must be the one
that is counted. In PAGES each other number of crates, mutants, tests and so on is a fault: it is listed here or leaves the page.

The lists are the diagram of ARCHITECTURE, the steps, the mutants, the sums and the longest chain of GATE, the folders of tests, the
scripts of registryd/check, the folders and files of registryd's sources, the libraries and sources of each crate's page, the exit statuses
and the decisions.
"""
import glob
import os
import re

import tree

WORDS = "two three four five six seven eight nine ten eleven twelve thirteen fourteen fifteen sixteen".split()
NUMBER = r"(?<![\w.,^-])(?:\d[\d,]*|" + "|".join(WORDS) + r")(?![\w.,^-]*\d)\b"

TESTING, GATE, ARCHITECTURE, THEOREMS = (f"docs/{name}.md" for name in ("TESTING", "GATE", "ARCHITECTURE", "THEOREMS"))
REGISTRYD, CHECK, CROWDS = "registryd/README.md", "registryd/check", "registryd/tests/crowds.py"

# The pages in which no number of the tree is stated that nothing compares, and the things that they count.
PAGES = ["README.md", "CONTRIBUTING.md", ARCHITECTURE, GATE, TESTING, THEOREMS, REGISTRYD, "crates/*/README.md", "tests/README.md"]
COUNTED = r"(?:crates|mutants|unit tests|tests|scripts|steps of the gate|statements|commands|queries|statuses|events|decisions|functions|tables|folders)"

# The greatest number of a crate's mutants that the gate tries, and of the columns of a line.
GATE_MUTANTS = 2
COLUMNS = 110


def clients():
    return tree.count_in(CHECK, r"^ *add_client ")


def round_count(kind):
    """Returns how many kills or losses of power registryd/check asks for."""
    return tree.number_in(CHECK, rf"{kind}:-(\d+)")


def statements():
    """Returns the sum of the table of statements, which conformance.py prints."""
    return sum(int(number) for number in re.findall(r"\d+ of (\d+)", tree.read(TESTING)))


def documented_programs():
    """Returns how many programs EMBEDDING has."""
    return len(glob.glob("examples/embedding/*.rt.txt") + glob.glob("bindings/c/example.c"))


def changes_without_commands():
    """Returns how many kinds of changes no command makes again. Records with notes are of the same changes as those with bytes."""
    kinds = tree.count_in("crates/log_records/src/kind.rt", r"^ *\d+ => Some\(Kind::(?!\w*Noted\b)")
    return kinds - tree.count_in("crates/store_model/specs/Replaying.antt", r"^replay_command D \(")


def commands_of_store():
    """Returns how many commands a store has: those of a script, without what is done to a lease, and without sweeps."""
    of_leases = {"Share", "Read", "GiveBack", "Verify", "Sweep"}
    return len(set(tree.variants("crates/store_api/src/verb.rt", "Verb")) - of_leases)


def gate_mutants():
    return len(tree.mutants("*", "must-fail"))


def other_mutants():
    return len(tree.mutants("*", "mutants"))


def events_of_pins():
    return len(tree.variants("crates/pin_core/src/event.rt", "Event"))


FIGURES = [
    ("README.md", "slots pins the N tables", lambda: len([name for name in tree.own_libraries("store_book") if name.endswith("_table")])),
    ("CONTRIBUTING.md", "In `store_book` these are N crates", lambda: len(tree.with_crates_above("store_book"))),
    ("CONTRIBUTING.md", "at most N of a crate in `must-fail/`", lambda: GATE_MUTANTS),
    ("CONTRIBUTING.md", "*Line of a document:* at most N columns", lambda: COLUMNS),
    (ARCHITECTURE, "no code but N types", lambda: len(tree.types_of("store_model"))),
    (GATE, "The longest chain of crates is N", lambda: len(tree.longest_chain())),
    (GATE, "At most N of a crate are in `must-fail/`", lambda: GATE_MUTANTS),
    (GATE, "crashes, N clients", clients),
    (TESTING, "| Unit tests, without proof | N |", lambda: tree.unit_tests("tests/*/*.rt.txt")),
    (TESTING, "| Unit tests that are proved too (`ghost_log`) | N |", lambda: tree.unit_tests("crates/ghost_log/src/*.rt")),
    (TESTING, "| Mutants that the prover must reject, in the gate | N |", gate_mutants),
    (TESTING, "| All other mutants | N |", other_mutants),
    (TESTING, "| Code that must not compile | N |", lambda: len(glob.glob("tests/compile_fail/*.edit"))),
    (TESTING, "| Calls made with each allocation failing in turn | N |", lambda: tree.count_in("tests/alloc_failure/calls", r"^.+$")),
    (TESTING, "| Statements of the OCI Distribution Specification | N |", statements),
    (TESTING, "| Kills of `registryd --data` | N |", lambda: round_count("KILLS")),
    (TESTING, "| Losses of power of `registryd --data` | N |", lambda: round_count("LOSSES")),
    (TESTING, "| Clients against `registryd` | N |", clients),
    (TESTING, "| Programs from the documents | N |", documented_programs),
    (TESTING, "at most N of a crate, for the clauses", lambda: GATE_MUTANTS),
    (TESTING, "N mutants change a definition", lambda: len(tree.mutants_of_definitions())),
    (TESTING, "N clients, each with a tenant of its own", lambda: tree.constant("crates/blobd/crashes/room.py", "TENANTS")),
    (TESTING, "Also while N connections work", lambda: tree.constant("crates/blobd/crashes/crowd.py", "CONNECTIONS")),
    (TESTING, "| `crowds.py` | N pulls of one image", lambda: tree.number_in(CROWDS, r"Pull\(server, paths\) for _ in range\((\d+)\)")),
    (TESTING, "during reads, N slow readers", lambda: tree.number_in(CROWDS, r"slow_reader\([^\n]* for _ in range\((\d+)\)")),
    (TESTING, "[N libraries of Go]", lambda: tree.count_in(CHECK, r"^ *add_library ")),
    (TESTING, "TLS with N types of keys", lambda: tree.constant("registryd/tests/tls.py", "KEYS")),
    (TESTING, "Then N changes that no client made", lambda: tree.constant("registryd/tests/crash/tampering.py", "KINDS")),
    (TESTING, "`registryd/check` makes N kills", lambda: round_count("KILLS")),
    (TESTING, "kills, N losses of power", lambda: round_count("LOSSES")),
    (THEOREMS, "N events change it: give, lend", events_of_pins),
    (THEOREMS, "N of its kinds of changes have no command", changes_without_commands),
    ("crates/pin_core/README.md", "N events on a world of slots", events_of_pins),
    ("crates/blob_store/README.md", "the N commands of `Store`", commands_of_store),
    ("crates/store_model/README.md", "the only code is N plain types", lambda: len(tree.types_of("store_model"))),
]


def number_of(text):
    """Returns the number that digits or a word spell."""
    digits = text.replace(",", "")
    return int(digits) if digits.isdigit() else WORDS.index(text.lower()) + 2


def pattern_of(phrase):
    """Returns the pattern of a phrase, whose words may be on several lines, and whose number is the group `number`."""
    words = r"\s+".join(re.escape(word) for word in phrase.split())
    return re.compile(re.sub(r"\bN\b", lambda _: f"(?P<number>{NUMBER})", words), re.I)


def without_code(text):
    """Returns a text with blanks in place of indented code, such as what a program prints."""
    return re.sub(r"^    .*", lambda code: " " * len(code[0]), text, flags=re.M)


def check_numbers(texts, fault):
    """Checks each number of FIGURES, and that PAGES have no others."""
    known = {}
    for document, phrase, count in FIGURES:
        found = list(pattern_of(phrase).finditer(texts[document]))
        known.setdefault(document, []).extend(one.span("number") for one in found)
        try:
            wanted = count()
        except (LookupError, OSError) as error:
            fault(f".ci/figures.py: cannot count for {document}: {phrase}: {error}")
            continue
        if len(found) != 1:
            fault(f"{document}: has a figure {len(found)} times instead of once (.ci/figures.py): {phrase}")
        elif number_of(found[0]["number"]) != wanted:
            fault(f"{document}: another number than in the tree: {' '.join(found[0].group().split())}: {wanted} in the tree")
    for document in (path for page in PAGES for path in sorted(glob.glob(page))):
        for found in re.finditer(rf"({NUMBER})\s+(?:[a-z]+\s+)?{COUNTED}\b", without_code(texts[document]), re.I):
            if found.span(1) not in known.get(document, []):
                fault(f"{document}: no check compares this number (.ci/figures.py): {' '.join(found.group().split())}")


def check_denied_mutants(crate, page, text, fault):
    """Checks that the page of a crate denies mutants only if the crate has none."""
    if re.search(r"\bno mutants?\b", text) and tree.mutants(crate, "must-fail") + tree.mutants(crate, "mutants"):
        fault(f"{page}: the crate has mutants")


def check_dependencies(crate, page, text, fault):
    """Checks that the page of a crate names the libraries that crates.txt has for it."""
    known = {name for names in tree.libraries().values() for name in names} | set(tree.libraries())
    section = re.search(r"^## Depends on\n(.*?)(?=^## |\Z)", text, re.M | re.S)
    named = set(re.findall(r"`(\w+)`", section.group(1))) & known if section else set()
    compare(page, "the libraries", sorted(named), sorted(tree.libraries()[crate]), fault)


def check_sources(crate, page, text, fault):
    """Checks that the page of a crate names each source, or something public that the source declares."""
    named = set(re.findall(r"\w+", " ".join(re.findall(r"```.*?```|`[^`\n]+`", text, re.S))))
    for path in sorted(glob.glob(f"crates/{crate}/src/*.rt")):
        name = os.path.basename(path).removesuffix(".rt")
        if name not in ("lib", "main", "laws") and not named & {name, *tree.public_names(path)}:
            fault(f"{page}: does not name the file {name}.rt, nor anything that it declares")


def check_pages_of_crates(texts, fault):
    """Checks the page of each crate."""
    for crate in tree.libraries():
        page = f"crates/{crate}/README.md"
        for check_page in (check_denied_mutants, check_dependencies, check_sources):
            check_page(crate, page, texts[page], fault)


def rows(text, columns):
    """Returns the cells of each row of a document's tables with this number of columns."""
    cells = [[cell.strip() for cell in line.strip().strip("|").split("|")] for line in text.splitlines() if line.startswith("|")]
    return [row for row in cells if len(row) == columns]


def compare(document, name, found, wanted, fault):
    """Checks that a list of a document is that of the tree."""
    for item in [item for item in found if item not in wanted]:
        fault(f"{document}: {name}: the tree has none of this name: {item}")
    for item in [item for item in wanted if item not in found]:
        fault(f"{document}: {name}: missing: {item}")
    if sorted(found) == sorted(wanted) and found != wanted:
        fault(f"{document}: {name}: another order than in the tree: {next(one for one, other in zip(found, wanted) if one != other)}")


def check_diagram(text, fault):
    """Checks that the diagram of ARCHITECTURE has each crate once, with those that it uses below it, and says which no other uses."""
    diagram = re.search(r"^```\n(.*?)^```$", text, re.M | re.S).group(1)
    lines = re.findall(r"^(?:[a-z]+(?: only)?)? +([a-z]+_?[a-z_]*) {2,}(\S.*)$", diagram, re.M)
    places = {name: place for place, (name, _) in enumerate(lines)}
    compare(ARCHITECTURE, "the diagram", sorted(name for name, _ in lines), sorted(tree.libraries()), fault)
    for crate in places.keys() & tree.libraries().keys():
        for name in tree.own_libraries(crate):
            if places.get(name, len(places)) < places[crate]:
                fault(f"{ARCHITECTURE}: the diagram has a crate above one that uses it: {name} above {crate}")
    unused = {name for name, line in lines if "no crate uses it" in line}
    for name in sorted(unused ^ (tree.unused_crates() - {"blobd", "blobctl"})):
        fault(f"{ARCHITECTURE}: the diagram must say that no crate uses a crate if none does: {name}")


def check_steps(text, fault):
    """Checks that GATE lists the steps of the gate in their order."""
    commands = []
    for names, *_ in rows(text, 3):
        for command in re.findall(r"`([^`]+)`", names):
            commands.append(f"{commands[-1].split()[0]} {command}" if command.startswith("--") else command)
    compare(GATE, "the steps", commands, tree.gate_steps(), fault)


def check_sum_of_steps(text, fault):
    """Checks the sum of the steps' times that GATE states."""
    minutes = sum(float(time) for names, _, time in rows(text, 3) if names.startswith("`"))
    stated = re.search(r"The sum, about (\d+) minutes", text)
    if not stated or int(stated.group(1)) != round(minutes):
        fault(f"{GATE}: the sum of the steps is another: {round(minutes)}")


def check_costs(text, fault):
    """Checks the table of crates in GATE: their names, their numbers of mutants, and the sums."""
    table = [row for row in rows(text, 4) if re.fullmatch(r"`\w+`|all", row[0])]
    found = {row[0].strip("`"): tuple(row[2:]) for row in table}
    wanted = {name: tuple(str(len(tree.mutants(name, tier)) or "") for tier in ("must-fail", "mutants")) for name in tree.libraries()}
    compare(GATE, "the table of crates", sorted(set(found) - {"all"}), sorted(wanted), fault)
    for name in [name for name in wanted if found.get(name, wanted[name]) != wanted[name]]:
        fault(f"{GATE}: other numbers of mutants than in the tree: {name}: {' and '.join(number or '0' for number in wanted[name])} in the tree")
    sums = (str(round(sum(float(row[1]) for row in table if row[0] != "all"))), str(gate_mutants()), str(other_mutants()))
    if [tuple(row[1:]) for row in table if row[0] == "all"] != [sums]:
        fault(f"{GATE}: the sums of the table of crates are others: {', '.join(sums)}")


def check_chain(text, fault):
    """Checks that the crates which GATE names as the longest chain are one."""
    chain = re.search(r"The longest chain of crates is \w+: (.*?)\.", text, re.S)
    names = re.findall(r"`(\w+)`", chain.group(1)) if chain else []
    is_chain = all(lower in tree.own_libraries(upper) for lower, upper in zip(names, names[1:]))
    if not is_chain or len(names) != len(tree.longest_chain()):
        fault(f"{GATE}: this is no longest chain of crates: {' '.join(names)}; one is {' '.join(tree.longest_chain())}")


def check_folders_of_tests(text, fault):
    """Checks the table of the folders of unit tests in TESTING."""
    listed = [re.sub(r"\[?`(\w+)`.*", r"\1", row[0]) for row in rows(text, 2) if re.fullmatch(r"\[?`\w+`(\]\(.*\))?", row[0])]
    compare(TESTING, "the table of folders", sorted(listed), tree.folders_of_tests(), fault)


def check_registryd(text, fault):
    """Checks that the page of registryd has each folder of its sources in the table of folders, and names each file."""
    folders = [row[0].strip("`/") for row in rows(text, 2) if re.fullmatch(r"`\w+/`", row[0])]
    compare(REGISTRYD, "the table of folders", sorted(folders), sorted(os.path.basename(path[:-1]) for path in glob.glob("registryd/src/*/")), fault)
    for path in sorted(glob.glob("registryd/src/*/*.rs")):
        name = path.removeprefix("registryd/src/")
        if f"`{name}`" not in text and not name.endswith("/mod.rs"):
            fault(f"{REGISTRYD}: does not name the file {name}")


def check_scripts(text, fault):
    """Checks that the table of scripts in TESTING has those that registryd/check runs, and the note those that run with a folder too."""
    run = re.findall(r"(?:together|alone) (WITH_FOLDER=1 )?\./(\w+\.py)", tree.read(CHECK))
    listed = [name for row in rows(text, 2) for name in re.findall(r"`(\w+\.py)`", row[0])]
    compare(TESTING, "the table of scripts", sorted(listed), sorted({name for _, name in run}), fault)
    notes = [part for part in text.split("\n\n") if "once more with a folder" in " ".join(part.split())]
    again = [name for note in notes for name in re.findall(r"`(\w+\.py)`", note)]
    compare(TESTING, "the scripts with a folder", sorted(again), sorted({name for folder, name in run if folder}), fault)


def statuses_in(text):
    """Returns the exit statuses of a document's tables, with those of a row such as "6 to 10"."""
    table = re.search(r"^\| Exit status \|.*\n\|[-|]+\n((?:\|.*\n)+)", text, re.M).group(1)
    found = set()
    for first, last in re.findall(r"^\| (\d+)(?: to (\d+))? \|", table, re.M):
        found |= set(range(int(first), int(last or first) + 1))
    return found


def check_statuses(texts, fault):
    """Checks the exit statuses of blobd and registryd in the documents with those of their code."""
    code = {int(number) for number in re.findall(r"^ *Stop::.* => (\d+),$", tree.read("crates/server_cli/src/stop.rt"), re.M)}
    folder = {int(number) for number in re.findall(r"u8 = (\d+);$", tree.read("registryd/src/operation/exit.rs"), re.M)}
    for document, wanted in (
        ("crates/blobd/README.md", code | {0}),
        ("docs/STORAGE.md", folder),
        ("docs/OPERATIONS.md", folder | {0, 1, 2}),
    ):
        if statuses_in(texts[document]) != wanted:
            fault(f"{document}: other exit statuses than the code: {sorted(statuses_in(texts[document]))} instead of {sorted(wanted)}")


def check_decisions(texts, fault):
    """Checks that the list of decisions has each record once, with its number, and that no number is there twice."""
    listed = re.findall(r"^- \[(\d{4})\]\((\S+)\)", texts["docs/decisions/README.md"], re.M)
    names = sorted(os.path.basename(path) for path in texts if re.fullmatch(r"docs/decisions/\d{4}-.*\.md", path))
    compare("docs/decisions/README.md", "the list", sorted(name for _, name in listed), names, fault)
    for number, name in listed:
        if not name.startswith(f"{number}-"):
            fault(f"docs/decisions/README.md: a record has another number: {number} {name}")
    numbers = [name[:4] for name in names]
    for number in sorted({number for number in numbers if numbers.count(number) > 1}):
        fault(f"docs/decisions: a number is there twice: {number}")


def check(texts, fault):
    """Checks all numbers and lists. Returns how many numbers."""
    check_numbers(texts, fault)
    check_pages_of_crates(texts, fault)
    check_diagram(texts[ARCHITECTURE], fault)
    for check_gate in (check_steps, check_sum_of_steps, check_costs, check_chain):
        check_gate(texts[GATE], fault)
    check_folders_of_tests(texts[TESTING], fault)
    check_registryd(texts[REGISTRYD], fault)
    check_scripts(texts[TESTING], fault)
    check_statuses(texts, fault)
    check_decisions(texts, fault)
    return len(FIGURES)
