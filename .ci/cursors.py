"""Compares what schema_cursor finds in a certificate with what openssl says of it. tests/programs/cursors has the program, the
output of `openssl asn1parse`, and in `values` what `openssl x509 -text` says of fields, with their paths."""
import re
import subprocess
import tempfile

import checker
import trees
from checker import TOP, text_of

NAME = "cursors"
HERE = f"{TOP}/tests/programs/{NAME}"
FILE = f"{TOP}/crates/der_show/data/certificate.der"
USES = ["schema_cursor", "schema_read", "schema_types", "ber", "der_asn1", "der", "der_core", "der_base"]


def elements():
    """The elements that openssl found, as the program prints them."""
    rows = re.findall(r"^ *(\d+):d=(\d+) +hl=(\d+) +l= *(\d+) +(cons|prim):", text_of(f"{HERE}/asn1parse"), re.M)
    return ["{}:d={} hl={} l={} {}".format(*it) for it in rows]


def store():
    """Writes what openssl says."""
    words = ["openssl", "asn1parse", "-inform", "DER", "-in", FILE]
    with open(f"{HERE}/asn1parse", "w", encoding="utf-8") as file:
        subprocess.run(words, stdout=file, check=True)


def run(is_stored):
    """Returns whether the program finds the elements that openssl finds, and the values, and how many lines these are."""
    if is_stored:
        store()
    with tempfile.TemporaryDirectory() as folder:
        octets, nodes = trees.table_of(folder, False)
        with open(f"{folder}/table", "wb") as file:
            file.write(octets)
        checker.lay_program(NAME, f"{folder}/{NAME}")
        path = checker.keep_unproved(f"{folder}/{NAME}", NAME, USES, [])
        ran = subprocess.run([path, f"{folder}/table", str(nodes["Certificate"]), FILE], capture_output=True, text=True, check=False)
    lines = ran.stdout.splitlines()
    expected = ["0 departures", *elements(), *text_of(f"{HERE}/values").splitlines()]
    held = not ran.returncode and lines == expected
    print(f"test: {NAME} finds {'what' if held else 'something else than what'} openssl finds")
    if not held:
        print("\n".join([*ran.stdout.splitlines(), ran.stderr[-5000:]]))
    return [held], {("cursors", "lines"): len(expected)}
