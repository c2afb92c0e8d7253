"""Compares the departures that der_show finds in the values of tests/departures with what is stored there: offset, path, sentence,
section, and whether BER allows it; and what it prints of them in lines, with the octets that are found."""
import json
import subprocess

import checker
from checker import TOP, text_of
from nodes import Node

FOLDER = f"{TOP}/tests/departures"
LEVELS, FOUND = 64, 16


def called(*words, octets):
    """What der_show prints of a value of a type of the module."""
    words = [checker.unproved("der_show"), *words, "--module", f"{FOLDER}/departures.asn1", "--type"]
    return lambda name: subprocess.run([*words, name], input=octets, capture_output=True, check=False).stdout.decode()


def listed(name, octets):
    """The departures that der_show lists in JSON."""
    found = json.loads(called("--json", octets=octets)(name))
    found = [it for value in found["values"] for it in value["departures"]] + found["departures"]
    return [(it["offset"], it["path"], it["rule"], it["section"], it["ber"]) for it in found]


def line_of(octets, offset, path, rule, section, _):
    """The line of a departure, which has the first octets of the element there, or of all if there is none."""
    rest = octets[offset:]
    size = 2 + rest[1] if len(rest) > 1 and rest[0] & 31 < 31 and rest[1] < 128 else len(rest)
    element = rest[:size] if size <= len(rest) else rest
    shown = ":".join(f"{it:02X}" for it in element[:FOUND]) + ".." * (len(element) > FOUND)
    return f"{path + ' ' if path else ''}at offset {offset}: {section}: {rule}; found {shown or 'the end'}"


def see(what, got, wanted):
    """Whether both are equal."""
    if got != wanted:
        print(f"test: departures: {what}: {got}, and should be {wanted}", flush=True)
    return got == wanted


def rows():
    """Types, octets, and their departures."""
    for name, digits, departures, sections in (it.split("\t") for it in text_of(f"{FOLDER}/departures.tsv").splitlines() if not it.startswith("#")):
        parts = [it.split("|") for it in departures.split(";")]
        yield name, bytes.fromhex(digits), [(int(at), path, rule, section, ber == "ber") for (at, path, rule, ber), section in zip(parts, sections.split(";"))]
    for count in (LEVELS, LEVELS + 1):
        octets = b""
        for _ in range(count):
            octets = Node(0x30, octets).octets()
        at = len(octets) - 2
        path = "[0]" * (LEVELS - 1)
        yield "Levels", octets, [(at, path, f"more than {LEVELS} levels of elements", "no section", False)] if count > LEVELS else []


def run():
    """Returns whether each departure is as it should be, and how many values there are."""
    held = []
    for name, octets, departures in rows():
        held.append(see(f"{name} {octets.hex()}", listed(name, octets), departures))
        lines = [it.removeprefix("standard input: ") for it in called("--strict", octets=octets)(name).splitlines() if " at offset " in it]
        held.append(see(f"{name} {octets.hex()} in lines", lines, [line_of(octets, *it) for it in departures]))
    print(f"test: departures: {held.count(True)} of {len(held)} lists are as they should be", flush=True)
    return held, {("departures", "lists"): len(held)}
