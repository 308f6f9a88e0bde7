"""What there is in the tree, for the checks of .ci/documents: crates, mutants, tests, scripts, decisions."""
import ast
import functools
import glob
import os
import re


def read(path):
    with open(path, encoding="utf-8") as source:
        return source.read()


def count_in(path, pattern):
    """Returns how many places of a file match a pattern."""
    return len(re.findall(pattern, read(path), re.M))


def found_in(path, pattern):
    """Returns what the one group of a pattern finds in a file."""
    found = re.search(pattern, read(path), re.S)
    if not found:
        raise LookupError(f"{path}: nothing matches {pattern}")
    return found.group(1)


def number_in(path, pattern):
    """Returns the number that the one group of a pattern finds in a file."""
    return int(found_in(path, pattern))


def constant(path, name):
    """Returns a number that a file in Python assigns to a name, or the number of elements of a collection."""
    for node in ast.walk(ast.parse(read(path))):
        if isinstance(node, ast.Assign) and isinstance(node.targets[0], ast.Name) and node.targets[0].id == name:
            value = node.value
            return value.value if isinstance(value, ast.Constant) else len(getattr(value, "elts", getattr(value, "keys", None)))
    raise LookupError(f"{path}: no constant {name}")


def variants(path, enum):
    """Returns the names of the variants of an enum of a Rattle file."""
    return re.findall(r"^    ([A-Z][A-Za-z]*)\b", found_in(path, rf"pub enum {enum} \{{\n(.*?)\n\}}"), re.M)


# ---- crates


@functools.lru_cache(None)
def libraries(list_name="crates.txt"):
    """Returns the libraries that a list has for each crate, in the list's order."""
    lines = [line.partition(":") for line in read(list_name).splitlines() if not line.startswith("#")]
    return {head.split()[0]: names.split() for head, colon, names in lines if colon}


def own_libraries(crate):
    """Returns the crates of this tree that a crate uses."""
    return [name for name in libraries()[crate] if name in libraries()]


def with_crates_above(crate):
    """Returns a crate and all that use it, also through others."""
    found = {crate}
    for other in libraries():  # lowest first
        if found.intersection(libraries()[other]):
            found.add(other)
    return found


@functools.lru_cache(None)
def chain_to(crate):
    """Returns a longest chain of crates that ends with this one, in which each uses the one before."""
    return max((chain_to(name) for name in own_libraries(crate)), key=len, default=()) + (crate,)


def longest_chain():
    return max(map(chain_to, libraries()), key=len)


def unused_crates():
    """Returns the crates that no other uses."""
    return {crate for crate in libraries() if with_crates_above(crate) == {crate}}


def types_of(crate):
    """Returns the names of the types that a crate's sources declare."""
    return {name for path in glob.glob(f"crates/{crate}/src/*.rt") for name in re.findall(r"^pub (?:struct|enum) (\w+)", read(path), re.M)}


def public_names(path):
    """Returns the names of the public items and functions that a source declares."""
    return re.findall(r"^ *pub (?:fn|struct|enum|trait|const|type) (\w+)", read(path), re.M)


# ---- mutants


def mutants(crate, tier):
    """Returns the files of a crate's mutants of a tier: `must-fail` or `mutants`. For the crate `*` those of all."""
    return sorted(glob.glob(f"crates/{crate}/{tier}/*.edit"))


def mutants_of_definitions():
    """Returns the mutants that change a definition instead of code."""
    return [path for tier in ("must-fail", "mutants") for path in mutants("*", tier) if read(path).startswith("file: specs/")]


# ---- tests


def folders_of_tests():
    """Returns the folders with unit tests, as tests/run finds them."""
    return sorted({os.path.basename(os.path.dirname(path)) for path in glob.glob("tests/*/*.rt.txt")})


def unit_tests(pattern):
    """Returns the number of unit tests in files."""
    return sum(count_in(path, r"^ *#\[test\]$") for path in glob.glob(pattern))


def gate_steps():
    """Returns the commands of the gate, in their order."""
    return [step or other for step, other in re.findall(r"^ *step (.*)$|^(package/record)\b", read(".ci/run"), re.M)]
