"""Makes certificates that openssl would not make, with true signatures. A key is Ed25519's, whose seed is the hash of its name: so the
same certificates are made each time."""
import functools
import hashlib
import ipaddress
import os
import subprocess
import tempfile

from nodes import Node, oid

ED25519 = "1.3.101.112"
ATTRIBUTES = {"C": "2.5.4.6", "O": "2.5.4.10", "OU": "2.5.4.11", "CN": "2.5.4.3", "DC": "0.9.2342.19200300.100.1.25", "E": "1.2.840.113549.1.9.1"}
FORMS = {"email": 0x81, "dns": 0x82, "dir": 0xA4, "uri": 0x86, "ip": 0x87, "rid": 0x88}


def sequence(*inside):
    return Node(0x30, list(inside))


def identifier(text):
    return Node(6, oid(text))


def integer(number):
    return Node(2, number.to_bytes((number + (number < 0)).bit_length() // 8 + 1, "big", signed=True))


def time_node(text):
    """UTCTime up to 2049 and GeneralizedTime after (RFC 5280, 4.1.2.5), or as the text says by a colon."""
    kind, _, digits = text.rpartition(":")
    is_utc = kind != "general" if kind else "19500101" <= text < "20500101"
    return Node(0x17, digits[2:].encode()) if is_utc else Node(0x18, digits.encode())


def attribute(text):
    """An attribute `CN=text`, or `CN/19=text` with the tag of its string."""
    word, _, value = text.partition("=")
    kind, _, tag = word.partition("/")
    default = {"C": 19, "DC": 22, "E": 22}.get(kind, 12)
    return sequence(identifier(ATTRIBUTES[kind]), Node(int(tag or default), value.encode("latin-1" if tag in ("20", "30") else "utf-8")))


def name(text):
    """A name `O=Example, CN=text`, whose levels have commas between, and the attributes of a level plus signs."""
    return sequence(*(Node(0x31, sorted((attribute(it) for it in level.split("+")), key=Node.octets)) for level in text.split(", ") if level))


def address(text):
    """The octets of an address, or of a range of addresses with its mask."""
    if text.startswith("hex."):
        return bytes.fromhex(text[4:])
    if "/" in text:
        whole = ipaddress.ip_network(text)
        return whole.network_address.packed + whole.netmask.packed
    return ipaddress.ip_address(text).packed


def general(text):
    """A GeneralName `dns:example.org`, or the base of a subtree."""
    form, _, value = text.partition(":")
    if form == "dir":
        return Node(FORMS[form], [name(value)])
    return Node(FORMS[form], address(value) if form == "ip" else oid(value) if form == "rid" else value.encode("latin-1"))


@functools.lru_cache(maxsize=None)
def seed(key):
    return hashlib.sha256(key.encode()).digest()


def private_key(key):
    """The private key with this name (RFC 8410, 7)."""
    return sequence(integer(0), sequence(identifier(ED25519)), Node(4, Node(4, seed(key)).octets())).octets()


def called(words, **files):
    """What openssl answers to these words, where a word that names one of the files is its path."""
    with tempfile.TemporaryDirectory() as folder:
        for it, octets in files.items():
            with open(f"{folder}/{it}", "wb") as file:
                file.write(octets)
        words = [f"{folder}/{it}" if it in files else it for it in words]
        return subprocess.run(["openssl", *words], capture_output=True, check=False, env={**os.environ, "LC_ALL": "C"})


@functools.lru_cache(maxsize=None)
def public_key(key):
    """The SubjectPublicKeyInfo of the key."""
    return called(["pkey", "-inform", "DER", "-in", "key", "-pubout", "-outform", "DER"], key=private_key(key)).stdout


@functools.lru_cache(maxsize=None)
def signature(key, octets):
    return called(["pkeyutl", "-sign", "-keyform", "DER", "-inkey", "key", "-rawin", "-in", "data"], key=private_key(key), data=octets).stdout


def extension(arc, value, critical=False):
    """An extension, whose value is an element, or octets."""
    octets = value if isinstance(value, bytes) else value.octets()
    return sequence(identifier(arc), *([Node(1, b"\xff")] if critical else []), Node(4, octets))


def usage(*bits):
    """A keyUsage with these bits."""
    if not bits:
        return Node(3, b"\x00")
    number = sum(0x8000 >> it for it in bits)
    octets = number.to_bytes(2, "big").rstrip(b"\x00")
    return Node(3, bytes([7 - max(bits) % 8]) + octets)


def key_identifier(key):
    return hashlib.sha1(public_key(key)).digest()[:8]


def certificate(subject, key, issuer, issuer_key, extensions, **edits):
    """The octets of a certificate; `extensions` has elements, and `edits` what is not as usual: version (writes_version where it is 1), inner and outer (algorithms),
    begins and ends (times), unique (the tag of a unique identifier), signed_by (the key that signs, where it is not the issuer's),
    unused_bits (of the signature), more (added to the serial number)."""
    version, inner = edits.get("version", 3), edits.get("inner", sequence(identifier(ED25519)))
    fields = [Node(0xA0, [integer(version - 1)])] if version > 1 or "writes_version" in edits else []
    serial = int.from_bytes(hashlib.sha256(f"{subject}|{issuer}|{key}".encode()).digest()[:8], "big") // 2 + edits.get("more", 0)
    validity = sequence(time_node(edits.get("begins", "20200101000000Z")), time_node(edits.get("ends", "20400101000000Z")))
    fields += [integer(serial), inner, name(issuer), validity, name(subject), RawNode(public_key(key))]
    fields += [Node(edits["unique"], b"\x00\x01")] if "unique" in edits else []
    fields += [Node(0xA3, [sequence(*extensions)])] if extensions else []
    signed, unused = sequence(*fields).octets(), edits.get("unused_bits", 0)
    made = signature(edits.get("signed_by", issuer_key), signed)
    if made[-1] % (1 << unused):
        # bits that are not used have to be zeros
        return certificate(subject, key, issuer, issuer_key, extensions, **{**edits, "more": edits.get("more", 0) + 1})
    return sequence(RawNode(signed), edits.get("outer", inner), Node(3, bytes([unused]) + made)).octets()


class RawNode(Node):
    """An element whose octets are there already."""

    def __init__(self, octets):
        super().__init__(octets[0], octets)

    def octets(self):
        return self.inside
