"""Tables of types that the compiler of ASN.1 writes."""
import os
import subprocess
import tempfile

import checker
from checker import TOP

# The modules whose types der_show knows, besides those of its own, which have open types that the compiled crates do not have.
FORMATS = [f"{TOP}/asn1/{it}.asn1" for it in ("spki", "x509", "pkcs1", "sec1", "pkcs8", "ocsp", "cms", "pkcs12")]
SHOWN = f"{TOP}/crates/schema_kinds/asn1/more.asn1"


def table_of(compiler, paths, only=()):
    """The octets of the table of the modules in these files, and the index of the node of each type that is asked for, or of all
    types, by MODULE.TYPE."""
    with tempfile.TemporaryDirectory() as folder:
        words = [compiler, "--schema", f"{folder}/table", *paths, *(word for it in only for word in ("--only", it))]
        ran = subprocess.run(words, stdin=subprocess.DEVNULL, check=False, capture_output=True, text=True)
        if ran.returncode:
            checker.give_up(f"no table of {', '.join(map(os.path.basename, paths))}", (ran.stdout + ran.stderr).splitlines())
        with open(f"{folder}/table", "rb") as file:
            octets = file.read()
    return octets, {name: int(index) for name, index in (it.split() for it in ran.stdout.splitlines())}
