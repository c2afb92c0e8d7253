"""Octets with one thing changed, for tests of readers: an octet changed or inserted, a cut, or an element changed while the
lengths around it still fit."""
import random

OCTET_WAYS = ["flipped", "other", "cut", "inserted"]
WAYS = ["absent", "twice", "swapped", "tag", "form", "class", "empty", "short", "more", "before", "octet"]
WAYS += ["value", "long", "indefinite"]
# Contents that break or keep the rules of some type: numbers, truth values, times, texts and OBJECT IDENTIFIERs.
VALUES = [b"\0", b"\1", b"\xff", b"\x7f\xff", b"\0\x80", b"a", b"\0a", b"\x2a\3", b"\1\xfe"]
VALUES += [b"20261231235959Z", b"261231235959Z", b"20261231235959.5Z"]


def octet_mutant(octets, at, way, dice):
    """The octets with that of an index changed, with another before it, or without it and what follows."""
    before, after = octets[:at], octets[at + 1 :]
    if way == "flipped":
        return before + bytes([octets[at] ^ 1 << dice.randrange(8)]) + after
    if way == "other":
        return before + dice.randbytes(1) + after
    return before if way == "cut" else before + bytes([dice.choice([0, dice.randrange(256)])]) + octets[at:]


def elements(octets):
    """The elements: identifier octets with contents, which are elements or octets. None if the octets are not DER."""
    found, at = [], 0
    while at < len(octets):
        start = at
        at += 1
        if octets[start] & 31 == 31:
            while at < len(octets) and octets[at] & 128:
                at += 1
            at += 1
        identifier, first, at = octets[start:at], octets[at : at + 1], at + 1
        count = first[0] & 127 if first and first[0] & 128 else 0
        length = int.from_bytes(octets[at : at + count], "big") if count else sum(first)
        at += count
        contents = octets[at : at + length]
        if not first or first[0] == 128 or len(contents) < length:
            return None
        at += length
        found.append([identifier, elements(contents) if identifier[0] & 32 else contents])
        if found[-1][1] is None:
            return None
    return found


def length_of(count, is_long=False):
    if count < 128 and not is_long:
        return bytes([count])
    octets = count.to_bytes(max(1, (count.bit_length() + 7) // 8) + (is_long and count > 127), "big")
    return bytes([128 | len(octets)]) + octets


def encoded(found, odd=None, way=""):
    """The octets of elements, of which one has a long or an indefinite length."""
    octets = b""
    for element in found:
        identifier, contents = element
        is_octets = isinstance(contents, bytes)
        contents = contents if is_octets else encoded(contents, odd, way)
        if element is odd and way == "indefinite" and not is_octets:
            octets += identifier + b"\x80" + contents + b"\0\0"
        else:
            octets += identifier + length_of(len(contents), element is odd and way == "long") + contents
    return octets


def places(found):
    """Each list of elements with each index."""
    for at, (_, contents) in enumerate(found):
        yield found, at
        if not isinstance(contents, bytes):
            yield from places(contents)


def element_mutant(octets, place, way, dice):
    """The element of this number changed in this way."""
    found = elements(octets)
    around, at = list(places(found))[place]
    element = around[at]
    identifier, contents = element
    is_octets = isinstance(contents, bytes)
    if way in ("absent", "twice"):
        around[at : at + 1] = [element] * (2 * (way == "twice"))
    elif way == "swapped":
        around[at : at + 2] = around[at : at + 2][::-1]
    elif way in ("tag", "form", "class"):
        flipped = dice.choice({"tag": [1, 2, 3, 4, 8, 16], "form": [32], "class": [64, 128, 192]}[way])
        element[:] = [bytes([identifier[0] ^ flipped]) + identifier[1:], contents if is_octets else encoded(contents)]
    elif way == "empty":
        element[1] = b""
    elif way == "short":
        element[1] = contents[:-1]
    elif way == "more":
        element[1] = contents + (dice.randbytes(1) if is_octets else [[b"\5", b""]])
    elif way == "before":
        element[1] = (dice.choice([b"\0", b"\xff", b"\x80"]) if is_octets else [[b"\2", b"\1"]]) + contents
    elif way == "octet" and contents and is_octets:
        flipped = dice.randrange(len(contents))
        element[1] = contents[:flipped] + dice.randbytes(1) + contents[flipped + 1 :]
    elif way == "value" and is_octets:
        element[1] = dice.choice(VALUES)
    return encoded(found, element, way)


def mutants(octets, count, seed):
    """So many of the mutants, or all of them for None. They are the same for the same seed."""
    dice = random.Random(f"{seed} {octets.hex()}")
    chosen = [(at, way) for at in range(len(octets)) for way in OCTET_WAYS]
    chosen += [(at, way) for at in range(len(list(places(elements(octets) or [])))) for way in WAYS]
    for at, way in chosen if count is None else dice.sample(chosen, min(count, len(chosen))):
        made = (octet_mutant if way in OCTET_WAYS else element_mutant)(octets, at, way, dice)
        if made != octets:
            yield made
