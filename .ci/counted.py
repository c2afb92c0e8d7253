"""What the gate counts, tests, mutants and what is compared, has to be what the file .ci/counts says: so a list, a
folder or a step that is lost fails the gate, and a review sees each change of a number."""
import os
import re

from checker import TOP, give_up, text_of

PATH = f"{TOP}/.ci/counts"
HEAD = """# How many there are of each kind: mutants, tests, runs of programs, steps of the gate, and what each step compares. Each step compares
# its numbers with what it sees, and writes them anew if it is called with `--store`.
"""
# A line of .ci/run that is a step: a command that ends the run if it fails.
STEP = re.compile(r'^(?:\w+="\$\w+" |\w+="\$\(\w+\)" |\w+="\$\()?((?:\.ci|tools|bindings)/\w+(?: --\w+)?|rt ci)\)?"?(?: +#.*)?$')


def stored():
    """The number of each kind and name in the file."""
    lines = re.findall(r"^([\w-]+) (\w+) (\d+)$", text_of(PATH) if os.path.exists(PATH) else "", re.M)
    return {(kind, name): int(number) for kind, name, number in lines}


def see(kinds, seen, is_stored):
    """Compares what is seen of these kinds with the file, or writes it there. Kinds may come with the names that are counted, None
    for all. A number of zero is none."""
    kinds = kinds if isinstance(kinds, dict) else dict.fromkeys(kinds)
    seen = {key: number for key, number in seen.items() if number}
    known = stored()

    def is_counted(key):
        return key[0] in kinds and (kinds[key[0]] is None or key[1] in kinds[key[0]])

    if is_stored:
        kept = {key: number for key, number in known.items() if not is_counted(key)}
        lines = [f"{kind} {name} {number}\n" for (kind, name), number in sorted({**kept, **seen}.items())]
        with open(PATH, "w", encoding="utf-8") as file:
            file.write(HEAD + "".join(lines))
        return
    keys = sorted(key for key in {*known, *seen} if is_counted(key))
    wrong = [f"{' '.join(it)}: {known.get(it, 0)} in .ci/counts, {seen.get(it, 0)} seen"
             for it in keys if known.get(it) != seen.get(it)]
    if wrong:
        give_up("not what .ci/counts has; --store writes it there", wrong)


def gate_steps():
    """The steps of .ci/run, each with how often it is there: lines that are a command, and end the run where it fails; and the number
    of other lines, which could end the run early."""
    lines = text_of(f"{TOP}/.ci/run").splitlines()
    found = [re.sub(r"\W+", "_", it[1]).strip("_") for it in map(STEP.match, lines) if it]
    if "set -e" not in lines:
        give_up(".ci/run goes on after a step that fails")
    others = [it for it in lines if it and not it.startswith("#") and not STEP.match(it)]
    return {("step", "lines_of_none"): len(others), **{("step", it): found.count(it) for it in found}}


def see_gate(is_stored=False):
    """The gate has the steps that .ci/counts says. Several steps see this, so that none can be left out alone."""
    see(("step",), gate_steps(), is_stored)
