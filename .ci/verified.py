"""Judges the certification paths in tests/paths by `der_show --verify`: the last certificate of each, with the others before it in the other order, as
servers send them. What it says has to be what each path says that it is; der_show verifies no signature and judges no policies."""
import base64
import functools
import os
import re
import subprocess
import tarfile
import tempfile

import checker
import stored_paths
from certificates import called
from checker import TOP, text_of
from nodes import oid

PURPOSES = {"1.3.6.1.5.5.7.3.1": "serverAuth", "1.3.6.1.5.5.7.3.2": "clientAuth", "1.3.6.1.5.5.7.3.3": "codeSigning",
            "1.3.6.1.5.5.7.3.4": "emailProtection", "1.3.6.1.5.5.7.3.8": "timeStamping", "1.3.6.1.5.5.7.3.9": "OCSPSigning"}
# policyMappings, policyConstraints and inhibitAnyPolicy: without a judgement on policies they are refused.
LIMITS = [oid(f"2.5.29.{it}") for it in (33, 36, 54)]
POLICY_RULES = ("Explicit", "Mapping", "Allowed")
# Paths of PKITS that are refused for a signature, one that without signatures is also valid without its second certificate, and one whose extKeyUsage has anyExtendedKeyUsage, which does not count.
UNSIGNED = ("4.1.2 ", "4.1.3 ", "4.1.6 ")
SHORTER = "4.5.8 "
ANY = "anyExtendedKeyUsage"
# The keywords that OpenSSL and RFC 4514 have in common.
HOSTS = ("www.example.org", "WWW.example.ORG", "mail.example.org", "a.b.example.org", "example.org", "mail.example.com", "xn--strae-oqa.example.org",
         "192.0.2.1", "192.0.2.2", "2001:db8::1", "2001:db8:0:0:0:0:0:1", "2001:db8::2")
KNOWN = re.compile(r"((CN|O|OU|C|L|DC)=[^+]*(,|$))+")


def pem(octets):
    return f"-----BEGIN CERTIFICATE-----\n{base64.encodebytes(octets).decode()}-----END CERTIFICATE-----\n"


def sentences():
    """The sentence of each rule of path_rules."""
    return dict(re.findall(r'^ +Rule::(\w+) =>\s+"([^"]{20,})"', text_of(f"{TOP}/crates/path_rules/src/rule.rt"), re.M))


@functools.lru_cache(maxsize=None)
def subject(octets):
    """The subject of a certificate as openssl writes it by RFC 4514, which is RFC 2253 with UTF-8."""
    ran = called(["x509", "-inform", "DER", "-in", "file", "-noout", "-subject", "-nameopt", "RFC2253,-esc_msb,utf8"], file=octets)
    return ran.stdout.decode().removeprefix("subject=").rstrip("\n")


def subjects(path, certificates):
    return [subject(certificates[it]) for it in [path.anchor, *path.certificates.split()]]


def said(folder, path, certificates):
    """What der_show says of a path: the status, and what it prints."""
    order = path.certificates.split()[::-1]
    for name, names in (("chain.pem", order), ("anchors.pem", [path.anchor])):
        with open(f"{folder}/{name}", "w", encoding="ascii") as file:
            file.write("".join(pem(certificates[it]) for it in names))
    time = f"{path.time[:4]}-{path.time[4:6]}-{path.time[6:8]}T{path.time[8:10]}:{path.time[10:12]}:{path.time[12:14]}Z"
    words = [checker.unproved("der_show"), "--verify", "--anchors", f"{folder}/anchors.pem", "--now", time]
    words += ["--purpose", PURPOSES[path.purpose]] if path.purpose in PURPOSES and path.purpose_of != "all" else []
    ran = subprocess.run([*words, f"{folder}/chain.pem"], capture_output=True, text=True, check=False)
    return ran.returncode, ran.stdout


def wanted_of(path, certificates, rules):
    """What der_show has to say: a status, and a part of what it prints; None if it is about what der_show does not judge."""
    octets = b"".join(certificates[it] for it in path.certificates.split())
    rule, _, place = path.rule.partition(" ")
    if rule in POLICY_RULES or "explicit" in path.asked or path.purpose_of == "all" or any(it in octets for it in LIMITS):
        return None
    if path.name == ANY:
        return 1, "Purpose: refused"
    if path.expected == "valid" or rule == "Signature" or path.name.startswith(UNSIGNED):
        names = subjects(path, certificates)[1:]
        return 0, ("".join(f"    {it}\n" for it in names) if all(map(KNOWN.fullmatch, names)) else "\n") + "    signature of "
    if path.name.startswith(SHORTER):
        return 0, f"refused: {rules['Authority']}"
    if rule == "Chain":
        return 1, "No path: no trust anchor is reached from "
    if rule in rules:
        return 1, f"refused: {rules[rule]}"
    return 1, "efused"


def see_hosts(folder):
    """Whether der_show finds the hosts and addresses among the names of a certificate that openssl finds."""
    with tarfile.open(f"{TOP}/tests/linted/certificates.tar.xz") as archive:
        octets = archive.extractfile("leaf.der").read()
    with open(f"{folder}/leaf.pem", "w", encoding="ascii") as file:
        file.write(pem(octets))
    held = []
    for host in HOSTS:
        option = "-checkip" if re.fullmatch(r"[0-9.]+|.*:.*", host) else "-checkhost"
        wanted = b"does match" in called(["x509", "-inform", "DER", "-in", "file", "-noout", option, host], file=octets).stdout
        words = ["--verify", "--anchors", f"{folder}/leaf.pem", "--now", "2026-01-01", "--host", host, f"{folder}/leaf.pem"]
        ran = subprocess.run([checker.unproved("der_show"), *words], capture_output=True, text=True, check=False)
        held.append((f"Host {host}: is a name" in ran.stdout, f"Host {host}: refused" in ran.stdout) == (wanted, not wanted))
        if not held[-1]:
            print(f"test: verified: host {host}: should be {'found' if wanted else 'refused'}:\n{ran.stdout}", flush=True)
    return held


def run():
    """Returns whether der_show says of each path what it should, and how much was compared. Go's paths have the trust anchor in them, so der_show finds a
    shorter one."""
    held, skipped, rules = [], 0, sentences()
    with tempfile.TemporaryDirectory() as folder:
        for name in ("made", "pkits"):
            at = f"{TOP}/tests/paths/{name}.txt"
            store = stored_paths.read(text_of(at))
            for path in store.paths:
                wanted = wanted_of(path, store.certificates, rules)
                if not wanted:
                    skipped += 1
                    continue
                status, text = said(folder, path, store.certificates)
                held.append(status == wanted[0] and wanted[1] in text)
                if not held[-1]:
                    print(f"test: verified: {os.path.basename(at)}: {path.name}: status {status}, and should be {wanted}:\n{text}", flush=True)
        hosts = see_hosts(folder)
    print(f"test: verified: {held.count(True)} of {len(held)} paths are judged by der_show as they should be; {skipped} are about policies; "
          f"{hosts.count(True)} of {len(hosts)} hosts", flush=True)
    counts = {("verified", "paths"): len(held), ("verified", "policies"): skipped, ("verified", "hosts"): len(hosts)}
    return [*held, *hosts], counts
