"""The lines that the drivers with rounds.rs print, one per row."""
import re

LINE = re.compile(
    r"(?P<row>(?P<name>.+), (?P<size>\S+ [KM]iB): .*); library (?P<library>[\d.]+) ns, "
    r"by hand (?P<hand>[\d.]+) ns, ratio [\d.]+(?:; the crate (?P<crate>[\d.]+) ns, ratio [\d.]+)?"
    r"(?:; mbedTLS (?P<mbedtls>[\d.]+) ns, ratio [\d.]+)?"
    r"(?:; octet by octet (?P<octets>[\d.]+) ns, ratio [\d.]+)?"
    r"(?:; handwritten types (?P<types>[\d.]+) ns, ratio [\d.]+)?$"
)
