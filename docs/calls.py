"""The public calls of the crates that have another answer than a value and out of memory, read off their sources.

docs/check asks that docs/verification/ANSWERS.md names each of them. Crates of tests and the reader of their cases are left out, and
so are implementations of a trait, which answer by the trait's clauses.
"""
import os
import re

# enumerations that say how a call ended, or that hold a refusal
ENDS = {
    "Answer", "Came", "Checked", "DrillEnd", "Ended", "Extent", "Found", "JobEnd", "Next", "NoJob", "Parsed", "Result", "Option",
    "ServeEnd", "Verdict", "Worked", "WordsFault",
}
FUNCTION = re.compile(r"(pub )?(?:const )?(?:unsafe )?fn (\w+)")


def exports(source):
    """The names that a crate hands on, and its public modules."""
    names, modules = set(), set(re.findall(r"^pub mod (\w+);", source, re.M))
    for listed in re.findall(r"^pub use [\w:]+::(\{[^}]*\}|\w+);", source, re.M):
        names.update(re.findall(r"\w+", listed))
    names.update(re.findall(r"^pub (?:fn|struct|enum|trait|type) (\w+)", source, re.M))
    return names, modules


def owner_of(head):
    """The type or the trait of a block; none of an implementation of a trait."""
    found = re.match(r"(?:pub )?(?:impl|trait)(?:<(?:[^<>]|<[^<>]*>)*>)? (\w+)", head)
    return found[1] if found and " for " not in head else None


def result_of(lines, at):
    """The type that the function at this line answers."""
    head = ""
    for line in lines[at:]:
        if re.match(r"\s*(requires|ensures)\b", line):
            break
        head += " " + line.strip()
        if line.rstrip().endswith(("{", ";", "}")):
            break
    found = re.search(r"\)\s*->\s*(.*?)\s*(?:where .*)?[{;]", head + "{")
    return found[1] if found else ""


def is_told(result):
    """Whether a result has another answer than a value and out of memory."""
    free = re.match(r"Result<(.*), (?:AllocError|AllocFailed<.*>)>$", result)
    inner = free[1] if free else result
    return bool(re.match(r"io::Result", inner)) or re.match(r"\w*", inner)[0] in ENDS


def calls_of(crate, folder):
    """The calls of a crate that are to be told, as `name` or `Type::name`."""
    with open(f"{folder}/lib.rt", encoding="utf-8") as file:
        names, modules = exports(file.read())
    for at, _, found in os.walk(folder):
        for name in sorted(it for it in found if it.endswith(".rt")):
            with open(os.path.join(at, name), encoding="utf-8") as file:
                lines = file.read().split("\n")
            owner, inside, is_trait = None, False, False
            for number, line in enumerate(lines):
                if re.match(r"(pub )?(impl|trait)\b", line):
                    owner, inside, is_trait = owner_of(line), True, " trait " in f" {line}"
                inside = inside and not line.startswith("}")
                function = FUNCTION.match(line.strip())
                if not function or (inside and not owner) or not (function[1] or (inside and is_trait)):
                    continue
                known = owner if inside else function[2]
                if known not in names and name[:-3] not in modules:
                    continue
                if is_told(result_of(lines, number)):
                    yield f"{owner}::{function[2]}" if inside else function[2]


def untold(top):
    """Each call that ANSWERS.md doesn't name, with its crate."""
    with open(f"{top}/docs/verification/ANSWERS.md", encoding="utf-8") as file:
        told = set(re.findall(r"`([\w:]+)`", file.read()))
    for crate in sorted(os.listdir(f"{top}/crates")):
        folder = f"{top}/crates/{crate}/src"
        if crate.startswith("tests_") or crate == "case_files" or not os.path.exists(f"{folder}/lib.rt"):
            continue
        for call in calls_of(crate, folder):
            if call not in told and f"{crate}::{call}" not in told:
                yield crate, call
