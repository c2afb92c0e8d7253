"""Compares what `der_show --der` writes of values under BER: those of tests/trees/*.rewritten with what asn1ct wrote of them, and
times and named bits, each in a form of BER, with what Python says that they are."""
import datetime
import fractions
import random
import subprocess
import tempfile

import checker
from checker import TOP, text_of
from nodes import Node, elements

TREES = f"{TOP}/tests/trees"
NAMES = ("sets", "ldap", "snmp", "kerberos", "objects")
COUNT = 1000
MODULE = """Rewritten DEFINITIONS ::= BEGIN
Times ::= SEQUENCE OF CHOICE { utc UTCTime, generalized GeneralizedTime }
Bits ::= SEQUENCE OF BIT STRING { first(0), fourth(3), last(20) }
END
"""


def rows(path):
    """The columns of a stored answer."""
    return [it.split("\t") for it in text_of(path).splitlines() if not it.startswith("#")]


def written(module, name, octets):
    """The status of der_show, and the octets that it writes of a value of this type."""
    with tempfile.NamedTemporaryFile() as file:
        file.write(octets)
        file.flush()
        words = [checker.unproved("der_show"), "--der", "--module", module, "--type", name, file.name]
        ran = subprocess.run(words, check=False, stdin=subprocess.DEVNULL, capture_output=True)
    return ran.returncode, ran.stdout


def see(what, octets, got, wanted):
    """Whether octets are written as they should be."""
    if got != wanted:
        print(f"test: rewritten: {what} {octets.hex()} is {got.hex() or 'not written'}, and should be {wanted.hex()}", flush=True)
    return got == wanted


def oracle():
    """Whether each value is written as asn1ct wrote it, but for those that rewritten.others has with a reason."""
    held, others = [], {(of, digits): octets for of, digits, octets, _ in rows(f"{TREES}/rewritten.others")}
    for name in NAMES:
        for of, digits, wanted in rows(f"{TREES}/{name}.rewritten"):
            if wanted != "refused":
                octets, wanted = bytes.fromhex(digits), others.pop((of, digits), wanted)
                held.append(see(of, octets, written(f"{TREES}/{name}.asn1", of, octets)[1], bytes.fromhex(wanted)))
    return [*held, *(False for _ in others)]


def zone_of(chance, is_utc):
    """A zone as it is written, and the minutes that local time is before UTC."""
    if chance.random() < 0.4:
        return "Z", 0
    hours, minutes, sign = chance.randrange(13), chance.choice((0, 0, 30, 45)), chance.choice((1, -1))
    if not is_utc and minutes == 0 and chance.random() < 0.5:
        return f"{'+' if sign > 0 else '-'}{hours:02}", sign * 60 * hours
    return f"{'+' if sign > 0 else '-'}{hours:02}{minutes:02}", sign * (60 * hours + minutes)


def fraction_of(chance):
    """A fraction as it is written, and its value."""
    if chance.random() < 0.4:
        return "", fractions.Fraction(0)
    digits = "".join(chance.choice("0012345678900") for _ in range(chance.randrange(1, 8)))
    return chance.choice(".,") + digits, fractions.Fraction(int(digits), 10 ** len(digits))


def local_time(chance, first, last):
    """A time in these years, often at an end of a month, a year or a day."""
    day = datetime.date(chance.randrange(first, last + 1), chance.choice((1, 2, 3, 12, chance.randrange(1, 13))), 1)
    if chance.random() < 0.7:
        day += datetime.timedelta(chance.choice((-1, 0, 27, 28, 30)) if first < day.year < last else chance.choice((0, 27)))
    return datetime.datetime(day.year, day.month, day.day, chance.choice((0, 23, chance.randrange(24))), chance.randrange(60), chance.randrange(60))


def utc_time(chance):
    """A UTCTime in a form of BER, and its contents in DER (X.690 11.8)."""
    time, (zone, minutes) = local_time(chance, 1951, 2048), zone_of(chance, True)
    has_seconds = chance.random() < 0.5
    time = time if has_seconds else time.replace(second=0)
    text = time.strftime("%y%m%d%H%M%S" if has_seconds else "%y%m%d%H%M") + zone
    return 0x17, text, (time - datetime.timedelta(minutes=minutes)).strftime("%y%m%d%H%M%SZ")


def generalized_time(chance):
    """A GeneralizedTime in a form of BER, and its contents in DER (X.690 11.7)."""
    time, (zone, minutes), (digits, part) = local_time(chance, 1, 9998), zone_of(chance, False), fraction_of(chance)
    unit, length = chance.choice(((3600, 10), (60, 12), (1, 14), (1, 14)))
    full = f"{time.year:04}{time.strftime('%m%d%H%M%S')}"
    time = time.replace(**{} if unit == 1 else {"second": 0} if unit == 60 else {"second": 0, "minute": 0})
    if time.year == 1:
        time, full = time.replace(year=2), "0002" + full[4:]
    seconds = part * unit
    moment = time - datetime.timedelta(minutes=minutes) + datetime.timedelta(seconds=int(seconds))
    rest, after = seconds - int(seconds), ""
    while rest:
        rest *= 10
        after += str(int(rest))
        rest -= int(rest)
    answer = f"{moment.year:04}{moment.strftime('%m%d%H%M%S')}{'.' if after else ''}{after}Z"
    return 0x18, full[:length] + digits + zone, answer


def bits(chance):
    """A BIT STRING of named bits in a form of BER, and its contents in DER (X.690 11.2)."""
    text = "".join(chance.choice("0001") for _ in range(chance.randrange(30))) + "0" * chance.randrange(12)

    def contents(text):
        unused = -len(text) % 8
        return bytes([unused]) + int(text + "0" * unused or "0", 2).to_bytes((len(text) + 7) // 8, "big")
    return 0x03, contents(text), contents(text.rstrip("0"))


def lists(module, name, makers):
    """Whether a list of values that these make is written in DER, value by value."""
    chance = random.Random(20)
    made = [chance.choice(makers)(chance) for _ in range(COUNT)]
    made = [(tag, *(it.encode() if isinstance(it, str) else it for it in pair)) for tag, *pair in made]
    given, wanted = ([Node(tag, pair[at]).octets() for tag, *pair in made] for at in (0, 1))
    status, octets = written(module, name, Node(0x30, b"".join(given)).octets())
    got = [it.octets() for it in elements(octets)[0].inside] if status in (0, 1) and octets else []
    got += [b""] * (len(wanted) - len(got))
    return [see(name, *it) for it in zip(given, got, wanted)]


def kept(module):
    """Whether times that have no form in DER are left, with status 1: no zone, the year 0, and a year after 9999 or 2049 in UTC."""
    held = []
    for tag, text in ((0x18, "20200229120000"), (0x18, "2020022912.5"), (0x18, "00000101000000+0100"), (0x18, "99991231235959.9-0001"), (0x17, "491231235959-0001")):
        octets = Node(0x30, [Node(tag, text.encode())]).octets()
        held.append(written(module, "Times", octets)[0] == 1)
        if not held[-1]:
            print(f"test: rewritten: {text} is written with status 0", flush=True)
    return held


def run():
    """Returns whether each value is written in DER as it should be, and how many there are."""
    found = {"asn1ct": oracle()}
    with tempfile.TemporaryDirectory() as folder:
        module = f"{folder}/rewritten.asn1"
        with open(module, "w", encoding="utf-8") as file:
            file.write(MODULE)
        found |= {"times": lists(module, "Times", (utc_time, generalized_time)), "bits": lists(module, "Bits", (bits,)), "kept": kept(module)}
    print("test: rewritten: " + ", ".join(f"{it.count(True)} of {len(it)} {name}" for name, it in found.items()), flush=True)
    return sum(found.values(), []), {("rewritten", name): len(it) for name, it in found.items()}
