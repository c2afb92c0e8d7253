"""What the checker's messages say of each function: whether it is refused, and whether a goal of it fails or only a name no longer fits."""
import re

GOAL = re.compile(r"note: src/\S+: .*\(`([^`]+)`\)")
ANSWER = re.compile(r"(?:\./)?proofs/(\S+)/[A-Za-z]+\.antt:\d+:\d+: error: (?:`([^`]+)`: )?(.*)", re.S)
LACKING = re.compile(r".*`search` did not prove `", re.S)
BY_LEMMA = re.compile(r"not proved; it stands on (?:`\S+`, )*`\S+Lemmas\.\S+`")
# What is said of an answer that names what an edit took away. What stands in backquotes is another's text, and is left out.
OF_NAMES = re.compile(r"was not admitted|was rejected, was not checked|is not in scope|has no field|can be named|\(nearest: ")
# What is said of a goal that is not proved where values were found that break it.
VALUES = "allow values at which this goal is false"
QUOTED = re.compile(r"`[^`]*`")


def joined(said):
    """The messages: a line that begins with spaces goes on with the one before. What was said while the check ran is said again at its end."""
    found = []
    for line in said:
        if line.startswith("  ") and found:
            found[-1] += "\n" + line.strip()
        elif not line.startswith("so far: "):
            found.append(line)
    return found


def is_of_names(message):
    return any(OF_NAMES.search(QUOTED.sub("``", it)) for it in message.splitlines())


def of_answer(folder, goal, cycles):
    """The function of an answer. Those of a cycle of calls share a folder, whose name begins with +, in that
    of their module; a cycle of several modules has a folder of its own, and goals that begin with paths."""
    at, plus, cycle = folder.replace("/", "::").rpartition("+")
    function = at + (goal or "").partition("-")[0]
    return function if plus and function in cycles else at + cycle


def answers(messages, cycles):
    """Of each answer that is not admitted its function, and whether its goal fails, and no name alone."""
    for it in map(ANSWER.match, messages):
        if it:
            yield of_answer(it[1], it[2], cycles), bool(it[2] and not is_of_names(it[3]))


def refusals(name, said, cycles=frozenset()):
    """Of each function of the crate that is refused, whether a goal of it fails; `cycles` has those in a cycle of calls. What is said
    of a function of a cycle is said of the whole cycle, so only the goals that begin with its own name count. Where an answer
    names what is gone, another goal may lack that answer alone: it counts if there are values at which it is false."""
    messages, found, goals = joined(said), {}, []
    for function, fails in answers(messages, cycles):
        found[function] = fails or found.get(function, False)
    lacking_names = {function for function, fails in answers(messages, cycles) if not fails}
    for message in messages:
        at, goal = re.match(rf"fn {name}::(\S+): (.*)", message, re.S), GOAL.match(message)
        if goal:
            goals.append((goal[1], VALUES in message))
        elif at:
            fails = [it for it, has_values in goals if has_values or at[1] not in lacking_names]
            if at[1] in cycles:
                fails = [it for it in fails if f"::{at[1]}".endswith(f"::{it.partition('-')[0]}")]
                if fails:
                    found[at[1]] = True
            elif fails or goals or LACKING.match(at[2]) or BY_LEMMA.match(at[2]):
                is_lacking = bool(LACKING.match(at[2])) and at[1] not in lacking_names
                found[at[1]] = bool(fails) or is_lacking or found.get(at[1], False)
            goals = []
    return found
