"""Files of openssl that the page is tested with, and one that is too large for it."""
import glob
import re
import subprocess
import sys
import tempfile

HOSTILE = "/O=<img src=x onerror=window.hacked=1>/CN=<script>window.hacked=1<\\/script>\u202egro.evil"
NAMES = {"OBJECT": "OBJECT IDENTIFIER", "UTF8STRING": "UTF8String", "PRINTABLESTRING": "PrintableString",
         "IA5STRING": "IA5String", "UTCTIME": "UTCTime", "GENERALIZEDTIME": "GeneralizedTime"}


def openssl(folder, *words):
    ran = subprocess.run(["openssl", *words], cwd=folder, capture_output=True, encoding="utf-8", check=False)
    if ran.returncode:
        sys.exit(f"web_test: openssl {' '.join(words)}: {ran.stderr}")
    return ran.stdout


def make_keys(folder):
    """Certificates, requests, and keys of two kinds."""
    for name, key in {"rsa": ["rsa:2048"], "ec": ["ec", "-pkeyopt", "ec_paramgen_curve:P-256"]}.items():
        subject = ["-subj", "/C=DE/O=Test & Söhne/CN=example.org", "-utf8"]
        names = ["-addext", "subjectAltName=DNS:example.org,DNS:www.example.org,IP:127.0.0.1,email:a@example.org"]
        more = ["-addext", "keyUsage=critical,keyCertSign,cRLSign", "-addext", "extendedKeyUsage=serverAuth,clientAuth",
                "-addext", "crlDistributionPoints=URI:http://example.org/a.crl", "-addext", "certificatePolicies=1.2.3.4",
                "-addext", "authorityInfoAccess=OCSP;URI:http://example.org/b"]
        openssl(folder, "req", "-x509", "-newkey", *key, "-nodes", "-keyout", f"{name}.pem", "-out", f"{name}.crt",
                "-set_serial", "0x123456789abcdef0", *subject, *names, *more)
        openssl(folder, "x509", "-in", f"{name}.crt", "-outform", "DER", "-out", f"{name}-certificate.der")
        openssl(folder, "req", "-new", "-key", f"{name}.pem", "-outform", "DER", "-out", f"{name}-request.der", *subject, *names)
        openssl(folder, "pkcs8", "-topk8", "-nocrypt", "-in", f"{name}.pem", "-outform", "DER", "-out", f"{name}-private.der")
        openssl(folder, "pkey", "-in", f"{name}.pem", "-pubout", "-outform", "DER", "-out", f"{name}-public.der")


def make_files(folder):
    """Ten files and more of openssl; the paths of those that are DER."""
    make_keys(folder)
    with open(f"{folder}/authority", "w", encoding="utf-8") as file:
        file.write("[ca]\ndefault_ca=a\n[a]\ndatabase=index\ndefault_md=sha256\ndefault_crl_days=30\n")
    with open(f"{folder}/index", "w", encoding="utf-8") as file:
        file.write("R\t350101000000Z\t260102030405Z,keyCompromise\t1234\tunknown\t/CN=a\n")
    openssl(folder, "ca", "-gencrl", "-config", "authority", "-keyfile", "rsa.pem", "-cert", "rsa.crt", "-out", "list.pem")
    openssl(folder, "crl", "-in", "list.pem", "-outform", "DER", "-out", "rsa-list.der")
    with open(f"{folder}/text", "w", encoding="utf-8") as file:
        file.write("hello\n")
    openssl(folder, "cms", "-sign", "-in", "text", "-signer", "rsa.crt", "-inkey", "rsa.pem", "-nodetach", "-binary",
            "-outform", "DER", "-out", "message.der")
    openssl(folder, "pkcs12", "-export", "-inkey", "ec.pem", "-in", "ec.crt", "-passout", "pass:secret", "-out", "both.der")
    openssl(folder, "rsa", "-in", "rsa.pem", "-traditional", "-outform", "DER", "-out", "key-pkcs1.der")
    openssl(folder, "ec", "-in", "ec.pem", "-outform", "DER", "-out", "key-sec1.der")
    openssl(folder, "pkcs8", "-topk8", "-in", "ec.pem", "-passout", "pass:secret", "-outform", "DER", "-out", "key-encrypted.der")
    openssl(folder, "ts", "-query", "-data", "text", "-sha256", "-cert", "-out", "time.der")
    openssl(folder, "ocsp", "-issuer", "rsa.crt", "-cert", "rsa.crt", "-reqout", "status.der")
    openssl(folder, "req", "-x509", "-key", "ec.pem", "-utf8", "-subj", HOSTILE,
            "-outform", "DER", "-out", "hostile.cer")
    return sorted(glob.glob(f"{folder}/*.der"))


def parsed(path):
    """The offset, lengths, depth and type of each element, as openssl prints them."""
    text = openssl(None, "asn1parse", "-inform", "DER", "-in", path)
    found = []
    for line in re.findall(r"^ *(\d+):d=(\d+) +hl=(\d+) +l= *(\d+) (?:prim|cons): (.{1,18})", text, re.M):
        offset, depth, header, length, kind = line
        kind = kind.split(":")[0].strip()
        kind = re.sub(r"^cont \[ (\d+) \]$", r"[\1]", kind)
        found.append([offset, f"{header} + {length}", NAMES.get(kind, kind), str(int(depth) + 1)])
    return found


def length_octets(length):
    if length < 128:
        return bytes([length])
    octets = length.to_bytes((length.bit_length() + 7) // 8, "big")
    return bytes([0x80 | len(octets)]) + octets


def element(tag, contents):
    return bytes([tag]) + length_octets(len(contents)) + contents


def large_list(small):
    """A revocation list of more than 10 MiB: one of openssl with many entries (its signature is wrong)."""
    begin = small.index(bytes.fromhex("02021234")) - 2
    entry = small[begin : begin + 2 + small[begin + 1]]
    serials = range(0x10000000, 0x10000000 + 290_000)
    entries = b"".join(element(0x30, element(2, it.to_bytes(4, "big")) + entry[6:]) for it in serials)
    rows = [(int(it[0]), *map(int, it[1].split(" + "))) for it in parsed_octets(small)]
    outer, inner = rows[0], rows[1]
    around = next(it for it in rows if it[0] < begin and it[0] + it[1] == begin)
    front = small[inner[0] + inner[1] : around[0]]
    rest = small[around[0] + around[1] + around[2] : inner[0] + inner[1] + inner[2]]
    after = small[inner[0] + inner[1] + inner[2] : outer[1] + outer[2]]
    return element(0x30, element(0x30, front + element(0x30, entries) + rest) + after)


def parsed_octets(octets):
    with tempfile.NamedTemporaryFile() as file:
        file.write(octets)
        file.flush()
        return parsed(file.name)
