"""What the checks wait for, and how long. It is no measure of the machine: a check that waits so long has found a fault, on a machine
with many times the load that it can carry, too. What is measured is printed, and fails nothing."""
import os
import time

# In seconds, on a machine that has a processor for each task that wants one.
QUIET = 180

# How often is tried what a machine that stands still meanwhile can spoil.
TRIES = 20


def crowd():
    """How many tasks want one processor of this machine, or of what this process may use of it: 1 at least."""
    return max(1.0, os.getloadavg()[0] / len(os.sched_getaffinity(0)))


def patience():
    """So many seconds are waited for what has to come, with the load that there is now."""
    return QUIET * crowd()


def patience_of_builds():
    """The same where a program is made first."""
    return 10 * patience()


def deadline():
    """A deadline for a descriptor, in whole seconds, that nobody is to wait for."""
    return min(int(patience()), 86400)


def brief_deadline():
    """One that is waited for, and that is long enough for nodes that are there."""
    return 1 + int(2 * crowd())


def until(is_so):
    """Waits until something is so; whether it came to be. The load may rise meanwhile."""
    begun = time.monotonic()
    while not is_so():
        if time.monotonic() - begun > patience():
            return False
        time.sleep(0.02)
    return True
