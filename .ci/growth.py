"""Whether the time of a program grows with the size of its input as it should, on a machine that does other work beside it."""
import os
import subprocess

FACTOR = 8
# Eight times the size takes eight times as long if time is linear, and 64 times if it is quadratic.
LIMIT = 16
# Other work makes a run longer and never shorter, so the least time of several runs is compared.
TRIES = 6


def seconds(words, env=None):
    """The processor time of a program, in user mode, without that of other programs that end meanwhile."""
    with subprocess.Popen(words, env=env, stdout=subprocess.DEVNULL) as ran:
        _, status, used = os.wait4(ran.pid, 0)
        ran.returncode = os.waitstatus_to_exitcode(status)
    if ran.returncode:
        raise subprocess.CalledProcessError(ran.returncode, words)
    return used.ru_utime


def is_linear(name, size, measured):
    """Whether an input of eight times the size takes less than LIMIT times as long, without what an empty one takes;
    `measured` returns the seconds for a size."""
    least = {}
    for _ in range(TRIES):
        for it in (0, size, FACTOR * size):
            least[it] = min(measured(it), least.get(it, float("inf")))
        none, few, many = least.values()
        if many - none < LIMIT * (few - none):
            return True
    print(f"test: {name}: a size of 0 takes {none:.2f} s, of {size} {few:.2f} s, and of {FACTOR * size} {many:.2f} s")
    return False
