"""Judges the certification paths in tests/paths by x509_path, in the program tests/programs/paths, and verifies the signatures that are its
obligations by openssl. The answer has to be what each path says that it is, and others said of it."""
import concurrent.futures
import functools
import glob
import os
import subprocess
import tempfile

import checker
import stored_paths
from certificates import called
from checker import TOP, text_of
from nodes import elements, oid

NAME = "paths"
USES = ["x509_path", "path_rules", "x509_names", "x509", "spki", "der_asn1", "der", "der_core", "der_base", "anyhow"]
ANY_POLICY = "2.5.29.32.0"
ORACLES = ("nist", "go", "openssl", "strict")
# The digest of each algorithm of signatures that has one.
DIGESTS = {"1.2.840.113549.1.1.5": "sha1", "1.2.840.113549.1.1.11": "sha256", "1.2.840.10040.4.3": "sha1"}


def counted(octets):
    return len(octets).to_bytes(4, "big") + octets


def listed(items):
    return len(items).to_bytes(4, "big") + b"".join(map(counted, items))


def case_of(path, certificates):
    """What the program reads of a path."""
    time = int(path.time[:4]).to_bytes(2, "big") + bytes(int(path.time[at:at + 2]) for at in range(4, 14, 2))
    asked = path.asked.split()
    flags = [it in asked for it in ("explicit", "no_mapping", "no_any")] + [path.purpose_of == "all"]
    return (time + listed([certificates[it] for it in [path.anchor, *path.certificates.split()]])
            + listed([oid(it) for it in (path.allowed or ANY_POLICY).split()]) + counted(oid(path.purpose) if path.purpose else b"") + bytes(flags))


@functools.lru_cache(maxsize=None)
def verifies(obligation):
    """Whether openssl verifies the signature of an obligation: a key, an algorithm, signed octets and a signature."""
    key, algorithm, signed, signature = obligation
    digest = next((it for arc, it in DIGESTS.items() if oid(arc) == elements(algorithm)[0].inside[0].inside), None)
    words = ["pkeyutl", "-verify", "-pubin", "-keyform", "DER", "-inkey", "key", "-rawin", "-in", "data", "-sigfile", "signature"]
    return not called(words + (["-digest", digest] if digest else []), key=key, data=signed, signature=signature).returncode


def split(octets):
    """The strings of octets in a file, each after its length."""
    while octets:
        end = 4 + int.from_bytes(octets[:4], "big")
        yield octets[4:end]
        octets = octets[end:]


def answers_of(lines, obligations):
    """The answer that each line of the program and the verdicts on its obligations give, with the rule and the place."""
    for line in lines:
        word, *rest = line.split()
        if word == "signed":
            own = [next(obligations, None) for _ in range(int(rest[0]))]
            broken = [at for at, it in enumerate(own) if not it or not verifies(it)]
            yield ("refused", f"Signature {broken[0]}") if broken else ("valid", "")
        else:
            yield word, " ".join(rest)


def is_held(path, found):
    """Whether the answer is what the path says, with its rule, and what others say, or there is a reason why not."""
    answer, rule = found
    if answer != path.expected or path.rule and rule != path.rule:
        print(f"test: paths: {path.name} is {answer} {rule}, expected {path.expected} {path.rule}", flush=True)
        return False
    differs = any(path.lines[it].split(",")[0] != path.expected for it in ORACLES if it in path.lines)
    if differs != bool(path.reason):
        print(f"test: paths: {path.name} differs without a reason, or has one and does not differ", flush=True)
        return False
    return True


def judged(paths):
    """What the program prints of these paths with their certificates, and the obligations."""
    with tempfile.TemporaryDirectory() as folder:
        checker.lay_program(NAME, f"{folder}/{NAME}")
        program = checker.keep_unproved(f"{folder}/{NAME}", NAME, USES, [])
        with open(f"{folder}/cases", "wb") as file:
            file.write(b"".join(case_of(*it) for it in paths))
        ran = subprocess.run([program, f"{folder}/cases", f"{folder}/obligations"], capture_output=True, text=True, check=False)
        if ran.returncode:
            checker.give_up(f"{NAME} ends with status {ran.returncode}", ran.stderr.splitlines()[-50:])
        with open(f"{folder}/obligations", "rb") as file:
            parts = split(file.read())
    return ran.stdout.splitlines(), list(zip(parts, parts, parts, parts))


def run():
    """Returns whether each path is judged as it says, and how many paths there are in each file."""
    stores = {os.path.basename(it)[:-4]: stored_paths.read(text_of(it)) for it in sorted(glob.glob(f"{TOP}/tests/paths/*.txt"))}
    paths = [(path, it.certificates) for it in stores.values() for path in it.paths]
    lines, obligations = judged(paths)
    with concurrent.futures.ThreadPoolExecutor(2) as pool:
        list(pool.map(verifies, set(obligations)))
    held = [is_held(path, answer) for (path, _), answer in zip(paths, answers_of(lines, iter(obligations)))]
    held += [False] * (len(paths) - len(held))
    print(f"test: paths: {held.count(True)} of {len(held)} paths are judged as NIST, Go and openssl judge them, or a reason says why not", flush=True)
    counts = {("paths", name): len(it.paths) for name, it in stores.items()}
    counts |= {("paths", f"reasons_{name}"): sum(bool(path.reason) for path in it.paths) for name, it in stores.items()}
    counts[("paths", "signatures")] = len(set(obligations))
    return held, counts
