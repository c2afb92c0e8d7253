"""Extensions for certificates of paths, and such certificates before it is known who issues them."""
from certificates import Node, certificate, extension, general, identifier, integer, key_identifier, sequence, usage

CE, PKIX, ANY_POLICY = "2.5.29.", "1.3.6.1.5.5.7.", "2.5.29.32.0"
SERVER, CLIENT, MAIL, ANY_PURPOSE = f"{PKIX}3.1", f"{PKIX}3.2", f"{PKIX}3.4", f"{CE}37.0"
ANCHOR = "O=Example, CN=Anchor"
UNKNOWN = "1.3.6.1.4.1.99999.1"


def basic(is_authority=True, limit=None, critical=True):
    parts = [Node(1, b"\xff")] * is_authority + ([integer(limit)] if limit is not None else [])
    return extension(f"{CE}19", sequence(*parts), critical)


def key_usage(*bits, critical=True):
    return extension(f"{CE}15", usage(*bits), critical)


def names(*texts, critical=False):
    return extension(f"{CE}17", sequence(*map(general, texts)), critical)


def subtrees(tag, texts, tail=()):
    return [Node(tag, [sequence(general(it), *tail) for it in texts])] if texts else []


def constraints(permitted=(), excluded=(), critical=True, tail=()):
    return extension(f"{CE}30", sequence(*subtrees(0xA0, permitted, tail), *subtrees(0xA1, excluded, tail)), critical)


def policies(*arcs, critical=False, pointer=""):
    """A certificatePolicies; each policy has a qualifier, if there is a pointer."""
    qualifiers = [sequence(sequence(identifier("1.3.6.1.5.5.7.2.1"), Node(0x16, pointer.encode())))] if pointer else []
    return extension(f"{CE}32", sequence(*(sequence(identifier(it), *qualifiers) for it in arcs)), critical)


def mappings(*pairs, critical=True):
    return extension(f"{CE}33", sequence(*(sequence(identifier(a), identifier(b)) for a, b in pairs)), critical)


def policy_constraints(require=None, inhibit=None, critical=True):
    given = [(0x80, require), (0x81, inhibit)]
    return extension(f"{CE}36", sequence(*(Node(tag, integer(it).inside) for tag, it in given if it is not None)), critical)


def inhibit_any(skip, critical=True):
    return extension(f"{CE}54", integer(skip), critical)


def purposes(*arcs, critical=False):
    return extension(f"{CE}37", sequence(*map(identifier, arcs)), critical)


def unknown(value=b"\x05\x00", critical=False):
    return extension(UNKNOWN, value, critical)


class Made:
    """A certificate: its extensions, its subject and its key, and what is not as usual."""

    def __init__(self, extensions, subject, key, edits):
        self.extensions, self.subject, self.key, self.edits = extensions, subject, key, edits

    def octets(self, issuer, issuer_key):
        extensions, edits = list(self.extensions), dict(self.edits)
        issuer = edits.pop("issuer", issuer)
        if edits.get("version", 3) == 3:
            above = sequence(Node(0x80, key_identifier(issuer_key)))
            extensions += [extension(f"{CE}14", Node(4, key_identifier(self.key))), extension(f"{CE}35", above)]
        return certificate(self.subject, self.key, issuer, issuer_key, extensions, **edits)


def authority(*more, basic=basic(), usage=key_usage(5, 6), subject=None, key=None, **edits):
    return Made([it for it in (basic, usage, *more) if it], subject, key, edits)


def last(*more, usage=key_usage(0), basic=None, subject="O=Example, CN=Last", key="last", **edits):
    return Made([it for it in (basic, usage, *more) if it], subject, key, edits)


def plain(version, extensions=(), subject=None, key=None, **edits):
    """A certificate of version 1 or 2."""
    return Made(extensions, subject, key, {"version": version, **edits})


def anchor_octets(subject=ANCHOR, key="anchor"):
    """A certificate of the trust anchor, signed by its own key."""
    return authority(subject=subject, key=key, ends="99991231235959Z").octets(subject, key)


def octets_of(path, issuer=ANCHOR, issuer_key="anchor"):
    """The octets of the certificates of a path, each issued by the one before."""
    found = []
    for at, it in enumerate(path):
        it.subject = it.subject if it.subject is not None else f"O=Example, CN=Authority {at + 1}"
        it.key = it.key or f"authority {at + 1}"
        found.append(it.octets(issuer, issuer_key))
        issuer, issuer_key = it.subject, it.key
    return found
