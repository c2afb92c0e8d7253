"""What `openssl verify` says of certification paths."""
import base64
import calendar
import re
import time

from certificates import called
from extensions import ANY_POLICY, CLIENT, SERVER

FLAGS = {"explicit": "-explicit_policy", "no_mapping": "-inhibit_map", "no_any": "-inhibit_any"}
PURPOSES = {SERVER: "sslserver", CLIENT: "sslclient"}


def pem(octets):
    return b"-----BEGIN CERTIFICATE-----\n" + base64.encodebytes(octets) + b"-----END CERTIFICATE-----\n"


def words(lines, has_between, is_strict):
    """The words of a call for a path with these lines (stored_paths.py). Without `-policy`, openssl allows no policy."""
    seconds = calendar.timegm(time.strptime(lines["time"], "%Y%m%d%H%M%SZ"))
    found = ["verify", "-no-CApath", "-no-CAstore", "-CAfile", "anchor", "-attime", str(seconds), "-policy_check"]
    found += ["-untrusted", "between"] * has_between
    found += [word for it in lines.get("allowed", ANY_POLICY).split() for word in ("-policy", it)]
    found += [FLAGS[it] for it in lines.get("asked", "").split()]
    found += ["-purpose", PURPOSES[lines["purpose"]]] if "purpose" in lines else []
    return found + ["-x509_strict"] * is_strict + ["last"]


def answer(anchor, path, lines, is_strict):
    """What openssl says of a path: valid, or its first error, and the certificate that this is about, counted as in the path."""
    ran = called(words(lines, len(path) > 1, is_strict), anchor=pem(anchor), between=b"".join(map(pem, path[:-1])), last=pem(path[-1]))
    if not ran.returncode:
        return "valid"
    said = (ran.stdout + ran.stderr).decode()
    found = re.search(r"^error (\d+) at (\d+) depth lookup: (.*)$", said, re.M)
    return f"refused, {found[3]}, {len(path) - 1 - int(found[2])}" if found else f"refused, {said.strip().splitlines()[0]}"
