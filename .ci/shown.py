"""Compares what der_show prints for the files that are kept in tests/shown with what openssl said of them, by tools/shown; the rules that it finds
broken in the certificates in tests/linted with those that they are made to break, by tools/linted; checks that it prints no secret octets of damaged
private keys, by tools/secrets; and reads values by a module."""
import re
import subprocess
import tempfile

import checker
from checker import TOP

# Values all of whose octets are printable characters, by X.690 8.1.2: `A` is the tag [APPLICATION 1], and the space a length of 32.
MODULE = "Printable DEFINITIONS ::= BEGIN\nWord ::= [APPLICATION 1] IMPLICIT IA5String\nEND\n"
WORD = "abcdefghijklmnopqrstuvwxyz012345"


def run(tool):
    """Returns whether der_show prints what the tool has stored, and how much that is, by lines `counted NAME NUMBER`."""
    ran = subprocess.run([f"{TOP}/tools/{tool}", "--stored", "--program", checker.unproved("der_show")], capture_output=True, text=True, check=False)
    said = ran.stdout + ran.stderr
    print(f"test: {re.sub('^counted .*', '', said, flags=re.M).strip()}", flush=True)
    return [not ran.returncode], {(tool, name): int(number) for name, number in re.findall(r"^counted (\w+) (\d+)$", ran.stdout, re.M)}


def run_modules():
    """Returns whether values of a type of a module are read, although they could be a text."""
    with tempfile.TemporaryDirectory() as folder:
        for name, text in (("printable.asn1", MODULE), ("word", f"A {WORD}"), ("words", f"A {WORD}" * 2)):
            with open(f"{folder}/{name}", "w", encoding="utf-8") as file:
                file.write(text)
        held = [reads(folder, "word", f" {WORD}\n"), reads(folder, "words", f" {WORD}\n" * 2)]
    print(f"test: der_show reads {held.count(True)} of {len(held)} files by a module", flush=True)
    return held, {("modules", "files"): len(held)}


def reads(folder, file, lines):
    """Whether der_show prints these lines for the file."""
    words = [checker.unproved("der_show"), "--module", "printable.asn1", "--type", "Word", file]
    ran = subprocess.run(words, cwd=folder, capture_output=True, text=True, check=False)
    if ran.returncode or ran.stdout != lines:
        print(f"test: {file}: status {ran.returncode}\n{ran.stdout}{ran.stderr}", flush=True)
        return False
    return True
