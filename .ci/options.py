"""Calls der_show with each option over files that openssl made, and compares what depends on the option with what openssl, Python or
another output of der_show says."""
import base64
import collections
import datetime
import json
import os
import pty
import re
import subprocess
import tarfile
import tempfile

import checker
from certificates import ED25519, RawNode, certificate, extension, identifier, name, private_key, sequence
from checker import TOP
from nodes import Node

MODULE = "Values DEFINITIONS ::= BEGIN\nPair ::= SEQUENCE { flag BOOLEAN, bits BIT STRING }\nEND\n"
TIME = "%b %d %H:%M:%S %Y GMT"
# How many departures of a value are printed, by the help of the program's JSON and its documentation.
PRINTED = 100
# What openssl writes around values of a kind.
LABELS = {
    "CERTIFICATE": "certificate", "X509 CRL": "crl", "PUBLIC KEY": "public-key", "PRIVATE KEY": "private-key", "EC PRIVATE KEY": "ec-private-key",
    "RSA PRIVATE KEY": "rsa-private-key", "DSA PRIVATE KEY": "dsa-private-key", "DSA PARAMETERS": "dsa-parameters",
    "X9.42 DH PARAMETERS": "x942-parameters",
}
# How openssl prints the files of a kind, by the end of their names.
TEXTS = {
    "ors": ["ocsp", "-resp_text", "-noverify", "-respin"], "orq": ["ocsp", "-req_text", "-reqin"], "crl": ["crl", "-inform", "DER", "-noout", "-text", "-in"],
    "cer": ["x509", "-inform", "DER", "-noout", "-text", "-in"], "csr": ["req", "-inform", "DER", "-noout", "-text", "-in"],
    "pub": ["pkey", "-pubin", "-inform", "DER", "-noout", "-text", "-in"], "key": ["pkey", "-inform", "DER", "-noout", "-text", "-in"],
}
# Lines of openssl that are no fields; of groups of Diffie-Hellman, which der_show prints in other words; and the seed of a curve, which it does not print.
AROUND = {"Certificate", "Data", "Subject Public Key Info", "Certificate Request", "Responder Error", "Validity", "No PSS parameter restrictions",
          "DH Private-Key", "DH Public-Key", "GROUP", "Seed"}
# Headings whose lines are those of openssl.
WHOLE = "Next Update|Explicit Text|Organization|Cert Status|Cofactor|Exponent|NIST CURVE"
HELD = []


def see(what, got, wanted):
    """Counts a comparison, and prints it if it fails."""
    HELD.append(got == wanted)
    if got != wanted:
        print(f"test: options: {what}: {got!r}, and should be {wanted!r}", flush=True)


def show(*words, octets=b"", out=subprocess.PIPE):
    """What der_show ends with, and what it prints."""
    ran = subprocess.run([checker.unproved("der_show"), *words], input=octets, stdout=out, stderr=subprocess.PIPE, check=False)
    return ran.returncode, (ran.stdout or b"").decode()


def found(pattern, text):
    """What the pattern finds in the text."""
    return (re.findall(pattern, text, re.M) or ["nothing"])[0]


def openssl(*words, both=False):
    """What openssl prints; to both streams, if it is asked."""
    ran = subprocess.run(["openssl", *words], capture_output=True, text=True, check=not both, stdin=subprocess.DEVNULL)
    return ran.stdout + ran.stderr if both else ran.stdout


def named(text):
    """The values of lines NAME=VALUE, with a day of one digit as two."""
    return {name: re.sub(r"  (\d) ", r" 0\1 ", value) for name, value in re.findall(r"^(\w+)=(.*)$", text, re.M)}


def see_short(folder):
    """--short of lists, and the days that --now counts."""
    for name in ("P-384.crl", "revoked.crl", "ed448.crl"):
        times = named(openssl("crl", "-inform", "DER", "-in", f"{folder}/{name}", "-noout", "-lastupdate", "-nextupdate"))
        period = found(r"; (\w+ +\d+ [\d:]+ \d+ GMT to \w+ +\d+ [\d:]+ \d+ GMT)", show("--short", f"{folder}/{name}")[1])
        see(f"--short {name}", re.sub(r"  (\d) ", r" 0\1 ", period), f"{times['lastUpdate']} to {times['nextUpdate']}")
    for name in ("rsa-leaf.cer", "ed25519-ca.cer"):
        end = named(openssl("x509", "-inform", "DER", "-in", f"{folder}/{name}", "-noout", "-enddate"))["notAfter"]
        end = datetime.datetime.strptime(end, TIME)
        for before in (-86401, -1, 0, 1, 86399, 86400, 86401, 31_536_000):
            now = end - datetime.timedelta(seconds=before)
            days = found(r"GMT, (-?\d+) days? left", show("--short", "--now", now.strftime("%Y-%m-%dT%H:%M:%SZ"), f"{folder}/{name}")[1])
            see(f"--now {before} s before the end of {name}", days, str(before // 86400))
        day = datetime.datetime(end.year - 1, end.month, end.day)
        days = found(r"GMT, (-?\d+) days? left", show("--short", "--now", day.strftime("%Y-%m-%d"), f"{folder}/{name}")[1])
        see(f"--now of a date and {name}", days, str((end - day).days))


def see_width(folder):
    """--width folds lines of octets, which are not longer then, and the characters stay as they are. A line ends where fewer than five columns
    are left, as an octet with its colon needs three."""
    path = f"{folder}/rsa-leaf.cer"
    text = show("--width", "0", path)[1]
    for width in range(60, 76):
        folded = show("--width", str(width), path)[1]
        see(f"--width {width}: the characters", re.sub(r"\s", "", folded), re.sub(r"\s", "", text))
        see(f"--width {width}: the longest line of octets", width - 4 <= max(map(len, re.findall(r"^ +(?:[0-9a-f]{2}:)+$", folded, re.M))) <= width, True)


def on_terminal(wanted, *words):
    """What der_show prints to a terminal; what is wanted, if the machine has no terminals."""
    try:
        mine, its = pty.openpty()
    except OSError:
        print("test: options: this machine has no terminals, so an output on one is not compared", flush=True)
        return wanted
    with subprocess.Popen([checker.unproved("der_show"), *words], stdin=subprocess.DEVNULL, stdout=its, stderr=subprocess.DEVNULL):
        os.close(its)
        text = b""
        try:
            while octets := os.read(mine, 65536):
                text += octets
        except OSError:
            # the program has ended
            pass
        os.close(mine)
    return text.decode().replace("\r\n", "\n")


def see_terminal(folder):
    """Lines are folded on a terminal, and not in a pipe, where other programs read them; --width counts for both."""
    path = f"{folder}/rsa-leaf.cer"
    whole = show("--width", "0", path)[1]
    see("the longest line is longer than a terminal's", max(map(len, whole.splitlines())) > 100, True)
    see("a pipe", show(path)[1], whole)
    for what, words, same in (("a terminal", [], ["--width", "100"]), ("--width on a terminal", ["--width", "70"], ["--width", "70"]), ("--json on a terminal", ["--json"], ["--json"])):
        wanted = show(*same, path)[1]
        see(what, on_terminal(wanted, *words, path), wanted)


def see_json(folder):
    """Offsets of a second value, and values that are not DER."""
    with open(f"{folder}/P-384.crl", "rb") as first, open(f"{folder}/rsa-leaf.cer", "rb") as second:
        octets, other = first.read(), second.read()
    found = json.loads(show("--json", octets=octets + other)[1])
    see("--json: offsets of two values", [it["offset"] for it in found["values"]], [0, len(octets)])
    alone = json.loads(show("--json", octets=other)[1])["values"][0]["value"]
    see("--json: the value behind another one", found["values"][1]["value"], alone)
    with open(f"{folder}/values.asn1", "w", encoding="utf-8") as file:
        file.write(MODULE)
    words = ("--json", "--module", f"{folder}/values.asn1", "--type", "Pair")
    for flag in (0x01, 0x7F, 0xFF, 0x00):
        for unused, bits in ((0, 0xA9), (3, 0xA8), (7, 0x80)):
            value = json.loads(show(*words, octets=bytes([0x30, 7, 1, 1, flag, 3, 2, unused, bits]))[1])["values"][0]["value"]
            see(f"--json: BOOLEAN {flag}", value["flag"], flag != 0)
            see(f"--json: BIT STRING with {unused} unused bits", value["bits"].get("unused", value["bits"].get("unusedBits")), unused)


def see_departures():
    """Many departures: so many are printed, and the others are counted."""
    for count in (PRINTED - 1, PRINTED, PRINTED + 1, 3 * PRINTED):
        octets = b"\x30\x82" + (3 * count).to_bytes(2, "big") + b"\x01\x01\x01" * count
        for words in ((), ("--strict",)):
            status, text = show(*words, octets=octets)
            more = [int(it) for it in re.findall(r"^ *and (\d+) more$", text, re.M)]
            see(f"{' '.join(words)} {count} departures: printed", (status, text.count("X.690 11.1")), (1, min(count, PRINTED)))
            see(f"{' '.join(words)} {count} departures: more", more, [count - PRINTED] if count > PRINTED else [])
        whole = json.loads(show("--json", octets=octets)[1])
        see(f"--json {count} departures of the file", whole["departureCount"], count)
        found = whole["values"][0]
        see(f"--json {count} departures", (len(found["departures"]), found["departureCount"]), (min(count, PRINTED), count))


def see_lint(folder):
    """--lint prints in lines what it prints in JSON, and warns of two algorithms (RFC 5280, 4.1.1.2) and of fields of a later version (4.1.2.1)."""
    with open(f"{folder}/rsa-leaf.cer", "rb") as file:
        octets = file.read()
    sha256 = bytes.fromhex("2a864886f70d01010b")
    two = octets.replace(sha256, sha256[:-1] + b"\x0c", 1)
    early = octets.replace(bytes.fromhex("a003020102"), bytes.fromhex("a003020101"), 1)
    see("the certificates are changed", (two != octets, early != octets), (True, True))
    for what, value in (("a certificate", octets), ("two algorithms", two), ("an early version", early)):
        status, text = show("--lint", octets=value)
        found = json.loads(show("--lint", "--json", octets=value)[1])["values"][0].get("lint", [])
        lines = re.findall(r"^Lint: (.*)$", text, re.M)
        see(f"--lint of {what}: as many lines as findings, and a sum", (len(lines), lines[-1].split()[0]), (len(found) + 1, str(len(found))))
        see(f"--lint of {what}: the status", status, int(bool(found)))
        warned = re.findall(r"^Warning: (.*)$", show(octets=value)[1], re.M)
        see(f"{what}: the warning", len(warned), int(what != "a certificate"))


def see_lint_of_ber():
    """--lint of a certificate with an indefinite length finds what it finds in its DER; where there is none, it says so."""
    with tarfile.open(f"{TOP}/tests/linted/certificates.tar.xz") as archive:
        for name in ("leaf", "serial_zero", "no_usage", "extension_twice"):
            octets = archive.extractfile(f"{name}.der").read()
            streamed = b"\x30\x80" + octets[4:] + b"\x00\x00"
            alone, found = (json.loads(show("--lint", "--json", octets=it)[1])["values"][0] for it in (octets, streamed))
            see(f"--lint of {name} in BER", (found["lint"], found["lintOf"]), (alone["lint"], "DER"))
            lines, others = (re.findall(r"^Lint: (.*)$", show("--lint", octets=it)[1], re.M) for it in (octets, streamed))
            see(f"--lint of {name} in BER: the lines", others[1:], lines)
            see(f"--lint of {name} in BER: the status", show("--lint", octets=streamed)[0], 1)
        cut = archive.extractfile("leaf.der").read()
    cut = cut[:3] + bytes([cut[3] - 8]) + cut[4:-8]
    see("--lint of a cut certificate", re.findall(r"^Lint: (.*)$", show("--lint", "--as", "certificate", octets=cut)[1], re.M)[-1:],
        ["no rule is checked, since the certificate cannot be written in DER"])


def headings(text):
    """How often each heading is in a text, with whether octets stand behind it; and each line of words alone. Names of algorithms before a key, identifiers
    and PEM blocks are left out."""
    text = re.sub(r"^-----BEGIN (.*)-----$(.|\n)*?^-----END \1-----$", "", text, flags=re.M)
    text = re.sub(r" \((?:\d+\.)+\d+\)(?=:)", "", text)
    text = re.sub(r"^( *)(?:ED25519|ED448|X25519|X448) (Public-Key|Private-Key)", r"\1\2", text, flags=re.M)
    lines = re.findall(r"^ *((?!(?:[0-9A-F]{2}(?:$|:)))[A-Z][A-Za-z0-9 #/-]*?) *(?::(?: *(.*))?)?$", text, re.M)
    found = collections.Counter((name, bool(re.fullmatch(r"[0-9A-F]{8,}", value))) for name, value in lines if name not in AROUND)
    whole = re.findall(rf"^ *((?:{WHOLE}):.*|No Revoked Certificates\.)$", re.sub(r":  +", ": ", text), re.M)
    return found + collections.Counter((it, False) for it in whole)


def see_headings(folder):
    """Each heading that openssl prints is printed as often, with octets behind it or with something else."""
    for name in sorted(os.listdir(folder)):
        words = TEXTS.get(name.rpartition(".")[2])
        if words:
            wanted, got = headings(openssl(*words, f"{folder}/{name}", both=True)), headings(show("--width", "0", f"{folder}/{name}")[1])
            see(f"the headings of {name}", {it: got[it] for it in wanted}, dict(wanted))


def see_made(folder):
    """The same of files that openssl would not make, or that are made here: a revocation list without entries and a next update, which is for some certificates and
    reasons; a certificate with an unknown qualifier; and a request for the status of a certificate that is signed."""
    algorithm = sequence(identifier(ED25519))
    point = sequence(Node(0x81, b"\xff"), Node(0x83, b"\x05\x60"), Node(0x84, b"\xff"))
    listed = sequence(Node(2, b"\x01"), algorithm, name("CN=List"), Node(0x17, b"260101000000Z"), Node(0xA0, [sequence(extension("2.5.29.28", point, True))]))
    qualifier = sequence(identifier("1.2.3.4"), Node(5, b""))
    policy = extension("2.5.29.32", sequence(sequence(identifier("1.2.3.5"), sequence(qualifier))))
    made = {
        "made.crl": sequence(listed, algorithm, Node(3, bytes(65))).octets(),
        "made.cer": certificate("CN=Last", "last", "CN=Last", "last", [policy]),
    }
    for file, octets in {**made, "last.key": private_key("last")}.items():
        with open(f"{folder}/{file}", "wb") as out:
            out.write(octets)
    for file in ("made.cer", "last.key"):
        words = ["x509"] if file == "made.cer" else ["pkey"]
        openssl(*words, "-inform", "DER", "-in", f"{folder}/{file}", "-out", f"{folder}/{file}.text")
    own = ("-issuer", f"{folder}/made.cer.text", "-cert", f"{folder}/made.cer.text")
    openssl("ocsp", *own, "-signer", f"{folder}/made.cer.text", "-signkey", f"{folder}/last.key.text", "-reqout", f"{folder}/made.orq")
    openssl("ecparam", "-name", "prime256v1", "-genkey", "-noout", "-out", f"{folder}/curve.text")
    openssl("ec", "-in", f"{folder}/curve.text", "-pubout", "-param_enc", "explicit", "-outform", "DER", "-out", f"{folder}/curve.pub")
    openssl("genrsa", "-aes128", "-traditional", "-passout", "pass:x", "-out", f"{folder}/secret.pem", "1024")
    for file in ("made.crl", "made.cer", "made.orq", "curve.pub"):
        wanted = headings(openssl(*TEXTS[file.rpartition(".")[2]], f"{folder}/{file}", both=True))
        got = headings(show("--width", "0", f"{folder}/{file}")[1])
        see(f"the headings of {file}", {it: got[it] for it in wanted}, dict(wanted))


def see_keys(folder):
    """The algorithm in the summary of a private key is that of its value; a public key has a warning in version 1 alone (RFC 5958, 2)."""
    for name in sorted(os.listdir(folder)):
        if name.endswith(".key"):
            value = json.loads(show("--json", f"{folder}/{name}")[1])["values"][0]["value"]
            arcs = value["privateKeyAlgorithm"]["algorithm"]["arcs"] if "privateKeyAlgorithm" in value else "private-key"
            see(f"--short of {name}", arcs in show("--short", f"{folder}/{name}")[1], True)
    for version, warned in ((0, 1), (1, 0)):
        secret, public = Node(4, Node(4, bytes(32)).octets()), Node(0x81, bytes(33))
        octets = sequence(Node(2, bytes([version])), sequence(identifier("1.3.101.112")), secret, public).octets()
        text = show("--as", "private-key", octets=octets)[1]
        see(f"warnings of a public key in version {version + 1}", text.count("Warning: a public key in version 1"), warned)


def see_sizes(folder):
    """The size of a key in the summary of its certificate."""
    for name in sorted(os.listdir(folder)):
        bits = name.endswith("-leaf.cer") and re.findall(r"Public-Key: \((\d+) bit\)", openssl(*TEXTS["cer"], f"{folder}/{name}"))
        if bits:
            see(f"--short of {name}: the size of the key", f" {bits[0]} bit;" in show("--short", f"{folder}/{name}")[1], True)


def see_encrypted(folder):
    """The kind and the header of an encrypted PEM block (RFC 1421) in JSON."""
    for name in sorted(it for it in os.listdir(folder) if it.endswith(".pem")):
        text = checker.text_of(f"{folder}/{name}")
        for info in re.findall(r"^DEK-Info: (.*)$", text, re.M):
            found = [it for it in json.loads(show("--json", octets=text.encode())[1])["values"] if it.get("dekInfo") == info]
            see(f"--json of {name}: the kind", [it["kind"] for it in found], ["encrypted-pem"])


def see_lines(folder):
    """The line of each PEM block in JSON."""
    with open(f"{folder}/rsa-leaf.pem", encoding="ascii") as file:
        block = file.read()
    text = f"a line\n\n{block}another\n{block}"
    wanted = [at + 1 for at, it in enumerate(text.splitlines()) if it.startswith("-----BEGIN")]
    see("--json: the lines of blocks", [it["line"] for it in json.loads(show("--json", octets=text.encode())[1])["values"]], wanted)


def see_private(folder):
    """The size of a private key, and the number of its primes, as openssl says them."""
    for name in ("rsa.key", "P-256.key", "secp224r1.key", "sect233k1.key"):
        line = found(r"^Private-Key: \(.*\)", show(f"{folder}/{name}")[1])
        see(name, line, found(r"^(?:RSA )?(Private-Key: \(.*\))", openssl("pkey", "-inform", "DER", "-in", f"{folder}/{name}", "-noout", "-text")))
    # RFC 8032, 5.1.5 and 5.2.5: 32 and 57 octets
    for name, size in (("ed25519.key", 32), ("ed448.key", 57)):
        see(name, found(r"^Private-Key: (\d+) octets", show(f"{folder}/{name}")[1]), str(size))


def see_labels(folder):
    """--pem writes the blocks that openssl wrote, with its labels (RFC 7468)."""
    for label, kind in LABELS.items():
        paths = sorted(it for it in os.listdir(folder) if it.endswith(".pem"))
        texts = [checker.text_of(f"{folder}/{it}") for it in paths]
        text = next(it for it in texts if it.count("-----BEGIN") == 1 and f"-----BEGIN {label}-----" in it)
        block = text[text.index("-----BEGIN"):]
        octets = base64.b64decode("".join(block.splitlines()[1:-1]))
        see(f"--pem of {label}", show("--pem", "--as", kind, octets=octets)[1], block)


def see_minimum():
    """The minimum of a subtree (RFC 5280, 4.2.1.10), which openssl does not print."""
    with tarfile.open(f"{TOP}/tests/linted/certificates.tar.xz") as archive:
        octets = archive.extractfile("subtree_with_minimum.der").read()
    wanted = octets[octets.index(bytes.fromhex("300aa0083006")):][6:12]
    see("the octets of the subtree", wanted, b"\x82\x01a\x80\x01\x01")
    see("the minimum of a subtree", found(r"^ +DNS:a, (.*)$", show(octets=octets)[1]), "minimum 1")


def see_bags(folder):
    """The bags of a PKCS #12 file: openssl names that of other bags, and RFC 7292, 4.2.4, that of a revocation list."""
    def octet_string(value):
        return Node(0xA0, [Node(4, value.octets())])

    def bag(kind, value):
        return sequence(identifier(f"1.2.840.113549.1.12.10.1.{kind}"), Node(0xA0, [value]))

    with open(f"{folder}/P-384.crl", "rb") as file:
        held = octet_string(RawNode(file.read()))
    bags = sequence(bag(4, sequence(identifier("1.2.840.113549.1.9.23.1"), held)), bag(6, sequence()))
    safes = sequence(sequence(identifier("1.2.840.113549.1.7.1"), octet_string(bags)))
    octets = sequence(Node(2, b"\x03"), sequence(identifier("1.2.840.113549.1.7.1"), octet_string(safes))).octets()
    path = f"{folder}/bags.p12"
    with open(path, "wb") as file:
        file.write(octets)
    said = openssl("pkcs12", "-in", path, "-info", "-nodes", "-nomacver", "-passin", "pass:", both=True)
    lines = show(path)[1].splitlines()
    see("a bag of bags", [it.strip() for it in lines if it.endswith(" bag")], ["CRL bag", *re.findall(r"^(Safe Contents bag)$", said, re.M)])
    see("a bag of a revocation list: its list", "    CRL extensions:" in lines, True)


def see_label(folder):
    """A label says of what kind a damaged value is: NEW CERTIFICATE REQUEST is one of a request (RFC 7468, 7)."""
    text = checker.text_of(f"{folder}/new.pem")
    label = found(r"^-----BEGIN (.*)-----$", text)
    octets = bytearray(base64.b64decode("".join(text[text.index("-----BEGIN"):].splitlines()[1:-1])))
    # the CertificationRequestInfo, a SEQUENCE, is an OCTET STRING
    octets[3] = 4
    body = base64.encodebytes(bytes(octets)).decode()
    for name in (label, "SOMETHING"):
        shown = show("--json", octets=f"-----BEGIN {name}-----\n{body}-----END {name}-----\n".encode())[1]
        see(f"the kind of a damaged {name}", json.loads(shown)["values"][0].get("kind"), "request" if name == label else "elements")


def run():
    """Returns whether each option prints what it should, and how much was compared."""
    HELD.clear()
    with tempfile.TemporaryDirectory() as folder:
        with tarfile.open(f"{TOP}/tests/shown/files.tar.xz") as archive:
            archive.extractall(folder, filter="data")
        for part in (see_short, see_width, see_terminal, see_json, see_lint, see_private, see_labels, see_label, see_bags, see_headings, see_made, see_keys, see_lines, see_sizes, see_encrypted):
            part(folder)
        see_departures()
        see_lint_of_ber()
        see_minimum()
        if os.path.exists("/dev/full"):
            with open("/dev/full", "wb") as full:
                see("a write that fails", show(f"{folder}/rsa-leaf.cer", out=full)[0], 1)
    print(f"test: options: {HELD.count(True)} of {len(HELD)} outputs of der_show are as they should be", flush=True)
    return list(HELD), {("options", "outputs"): len(HELD)}
