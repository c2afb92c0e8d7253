"""Elements in memory, for tools that read or change octets which openssl made."""


class Node:
    """An element: its identifier octet, and its contents or the elements in it."""

    def __init__(self, tag, inside):
        self.tag, self.inside = tag, inside

    def octets(self):
        inside = self.inside if isinstance(self.inside, bytes) else b"".join(it.octets() for it in self.inside)
        size = len(inside)
        digits = size.to_bytes((size.bit_length() + 7) // 8, "big")
        return bytes([self.tag]) + (bytes([size]) if size < 128 else bytes([128 + len(digits)]) + digits) + inside


def elements(octets):
    """The elements in these octets."""
    found, at = [], 0
    while at < len(octets):
        tag, size, start = octets[at], octets[at + 1], at + 2
        if size >= 128:
            start += size - 128
            size = int.from_bytes(octets[at + 2:start], "big")
        inside = octets[start:start + size]
        found.append(Node(tag, elements(inside) if tag & 0x20 else inside))
        at = start + size
    return found


def oid(text):
    """The contents octets of an object identifier (X.690 8.19)."""
    arcs = [int(it) for it in text.split(".")]
    octets = bytearray()
    for arc in [arcs[0] * 40 + arcs[1], *arcs[2:]]:
        digits = [arc % 128]
        while arc := arc // 128:
            digits.append(arc % 128 + 128)
        octets += bytes(reversed(digits))
    return bytes(octets)
