"""The tests of some areas of tests/ as a crate: their files, those of other areas that they use, and the crates that all
these use. And what checks a crate: areas, programs and steps of `.ci/test`."""
import glob
import os
import re

from checker import KIT, PROGRAMS, TOP, crates, folder_of, give_up, text_of

TESTS = f"{TOP}/tests"
# The steps of `.ci/test` beside areas and programs.
STEPS = ["trees", "vectors", "cursors", "shown", "linted", "secrets", "modules", "paths", "rewritten", "options", "departures", "verified", "bindings", "package"]
# What checks a crate beside the area of tests/ that has its name, if there is one: other areas, programs, and steps of `.ci/test`.
ALSO = {
    "der_core": ["der"], "der": ["der_memory"], "test_fixtures": ["der"], "der_tool_lib": ["der_tool"],
    "ldap": ["protocols"], "snmp": ["protocols"], "kerberos": ["protocols"],
    "asn1_syntax": ["asn1_compile"], "asn1_check": ["asn1_compile"], "asn1_output": ["asn1_compile"], "asn1_table": ["asn1_compile", "trees"],
    "asn1_compile": ["vectors"], "schema_read": ["departures", "trees"], "schema_types": ["trees"], "schema_cursor": ["cursors"], "schema_write": ["rewritten", "shown"],
    "der_print": ["der_show"], "schema_kinds": ["der_show", "secrets"], "der_show_lib": ["der_show"],
    "der_show": ["shown", "linted", "secrets", "modules", "rewritten", "options", "departures", "verified"], "x509_lint": ["linted"], "path_rules": ["paths"], "x509_path": ["paths"], "x509_build": ["verified"], "path_print": ["verified"],
}
# Crates whose tests need what proofs build, and the command that runs these.
BY_PROOF = {"der_page": "tools/web_test", "der_c": "bindings/test"}


def rooms():
    """The crates of each room of crates.txt."""
    parts = re.split(r"^# (\w+): .*$", text_of(f"{TOP}/crates.txt"), flags=re.M)[3:]
    return {name: re.findall(r"^(\w+).*:", text, re.M) for name, text in zip(parts[::2], parts[1::2])}


def names():
    """The areas of tests/."""
    return re.findall(r"^mod (\w+);", text_of(f"{TESTS}/lib.rs"), re.M)


def programs():
    """The programs that have a file `stdout`."""
    return [*(it for it in crates() if os.path.exists(f"{folder_of(it)}/stdout")), *PROGRAMS]


def room_of(word):
    """The crates of the room with this name that something checks, or the word itself."""
    inside = [] if word in crates() else rooms().get(word, [])
    tested = [it for it in inside if it in names() or it in ALSO or it in programs()]
    return tested or [it for it in inside if it in BY_PROOF] or [word]


def asked(words):
    """What these words ask for: areas of tests/, and programs and steps, in the order in which they are met. A crate asks for what
    checks it, and a room for what checks its crates."""
    found, rest = [], [it for word in words for it in room_of(word)]
    for word in rest:
        name = word.partition(":")[0]
        known = [it for it in [name] if it in names() or it in STEPS or it in programs()]
        more = ALSO.get(name, [])
        if not known and not more:
            program = next((it for front, it in BY_PROOF.items() if word.startswith(front)), None)
            why = f"`{program}` tests it, over what `rt ci` built" if program else "no area of tests/, no crate with tests, no program and no step"
            give_up(f"{word}: {why}")
        found += [it for it in known if it not in found]
        rest += [it for it in more if it not in rest]
    return found


def path_of(module):
    return f"{TESTS}/{'/'.join(module)}.rs"


def file_module(path):
    """The module of the longest front of a path that is a file, as a tuple of names, or none."""
    fronts = (tuple(path[:end]) for end in range(len(path), 0, -1))
    return next((it for it in fronts if os.path.isfile(path_of(it))), None)


def children(module):
    return [(*module, it) for it in re.findall(r"^(?:pub |pub\(\w+\) )?mod (\w+);", text_of(path_of(module)), re.M)]


def named(module):
    """The modules of other files that a file names, by `crate` or `super`."""
    for of, rest in re.findall(r"\b(crate|super(?:::super)*)::((?:\w+|\{[^}]*\})(?:::\w+)*)", text_of(path_of(module))):
        base = () if of == "crate" else module[: -of.count("super")]
        for it in re.findall(r"\w+(?:::\w+)*", rest) if rest.startswith("{") else [rest]:
            found = file_module([*base, *it.split("::")])
            if found and found[: len(module)] != module:
                yield found


def is_list(module):
    """Whether a file has only the names of modules."""
    return not re.sub(r"^(?://.*|(?:pub )?mod \w+;|\s*)$", "", text_of(path_of(module)), flags=re.M).strip()


def reached(areas):
    """The modules of these areas, and those of others that they use, each with all inside it."""
    found, rest = set(), [(it,) for it in areas]
    while rest:
        module = rest.pop()
        if module not in found:
            found.add(module)
            rest += [*children(module), *named(module)]
            # what a file has beside the names of modules is used too
            rest += [module[:-1]] * (len(module) > 1 and not is_list(module[:-1]))
    return found


def lay(folder, areas):
    """Writes the crate of these tests into the folder, and returns the crates that they use."""
    modules = reached(areas)
    fronts = {it[:end] for it in modules for end in range(len(it))}
    for module in modules | fronts:
        inside = sorted({it[len(module)] for it in modules if len(it) > len(module) and it[: len(module)] == module})
        text = text_of(path_of(module)) if module in modules else "".join(f"pub mod {it};\n" for it in inside)
        if not module:
            text = "#![tactic(auto)]\n" + "".join(f"#[cfg(test)]\nmod {it};\n" for it in inside)
        path = f"{folder}/src/{'/'.join(module) or 'lib'}.rt"
        os.makedirs(os.path.dirname(path), exist_ok=True)
        with open(path, "w", encoding="utf-8") as file:
            file.write(text)
    return used(text_of(path_of(it)) for it in modules)


def used(texts):
    """The crates that the texts name."""
    there = {*crates(), *(os.path.basename(it)[:-5] for it in glob.glob(f"{KIT}/rlibs/*.rlib"))} - {"std", "core"}
    words = {word for text in texts for pair in re.findall(r"(?<![:\w])(\w+)::(?!<)|\buse (\w+)\b", text) for word in pair}
    return sorted(words & there)
