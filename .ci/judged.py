"""Sees that judgement.py judges the stored messages of the checker, .ci/messages/*.txt, as they are marked: first lines
`crate: NAME`, `cycle: FUNCTION ..` and `FUNCTION: VERDICT` for each function that is refused, then a blank line, then what the checker said."""
import glob
import os

import judgement
from checker import TOP, give_up, text_of

VERDICTS = {"by a goal": True, "by names alone": False}


def see():
    """Compares the verdict on each stored message."""
    paths, wrong = sorted(glob.glob(f"{TOP}/.ci/messages/*.txt")), []
    for path in paths:
        head, _, said = text_of(path).partition("\n\n")
        marks = dict(it.rsplit(": ", 1) for it in head.splitlines())
        name, cycles = marks.pop("crate"), marks.pop("cycle", "").split()
        found = judgement.refusals(name, said.splitlines(), set(cycles))
        if found != {it: VERDICTS[verdict] for it, verdict in marks.items()}:
            wrong.append(f"{os.path.basename(path)} is judged {found}")
    if wrong or not paths:
        give_up("messages of the checker are not judged as they are marked", wrong)
    print(f"mutants: {len(paths)} stored messages of the checker are judged as they are marked")
