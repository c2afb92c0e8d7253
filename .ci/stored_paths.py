"""Certification paths in text files, as tests/paths has them: blocks of lines `word: value` with blank lines between.

    certificate: NAME            octets: BASE64
    path: NAME                   of a test
    anchor: NAME                 the certificate whose subject and key are those of the trust anchor
    certificates: NAME ..        the path, from the certificate that the trust anchor issued to the last
    time: YYYYMMDDHHMMSSZ
    allowed: OID ..              the user-initial-policy-set; without this line it is anyPolicy
    asked: FLAG ..               explicit, no_mapping, no_any: the flags of RFC 5280, 6.1.1 (e) to (g)
    purpose: OID                 that an extended key usage has to name, of the last certificate
    purpose_of: all              or of every certificate
    expected: valid | refused
    rule: RULE AT                the rule that the certificate at this place is made to break
    ORACLE: ANSWER               what another program says, where it is not the source of `expected`
    reason: TEXT                 why `expected` is not what that program says"""
import base64


class Path:
    """A path of a test: its lines."""

    def __init__(self, name, **lines):
        self.name, self.lines = name, {word: it for word, it in lines.items() if it}

    def __getattr__(self, word):
        return self.lines.get(word, "")

    def text(self):
        return "".join(f"{word}: {it}\n" for word, it in {"path": self.name, **self.lines}.items())


class Store:
    """Certificates by their names, and paths of them."""

    def __init__(self, head="", certificates=(), paths=()):
        self.head, self.certificates, self.paths = head, dict(certificates), list(paths)

    def text(self):
        blocks = ["".join(f"# {it}\n" for it in self.head.splitlines())]
        blocks += [f"certificate: {name}\noctets: {base64.b64encode(octets).decode()}\n" for name, octets in self.certificates.items()]
        return "\n".join(blocks + [it.text() for it in self.paths])


def read(text):
    """The certificates and paths of a text."""
    found = Store("\n".join(it[2:] for it in text.splitlines() if it.startswith("# ")))
    for block in text.split("\n\n"):
        lines = dict(it.split(": ", 1) for it in block.splitlines() if not it.startswith("#"))
        if "certificate" in lines:
            found.certificates[lines["certificate"]] = base64.b64decode(lines["octets"], validate=True)
        elif lines:
            found.paths.append(Path(lines.pop("path"), **lines))
    return found


def written(path, store, is_checked):
    """Writes the file, or says whether it has this text."""
    if is_checked:
        with open(path, encoding="utf-8") as file:
            return file.read() == store.text()
    with open(path, "w", encoding="utf-8", newline="\n") as file:
        file.write(store.text())
    return True
