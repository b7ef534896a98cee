"""What a check wants, what it says, and how it ends."""
import os
import sys
import threading
import time

from lib.patience import TRIES, until


class Wrong(Exception):
    """What was found in place of what was wanted."""


def expect(what, found, wanted):
    if found != wanted:
        raise Wrong(f"{what}: {found!r} in place of {wanted!r}")


def wait_for(what, is_so):
    if not until(is_so):
        raise Wrong(f"{what} doesn't come")


def in_one_try(what, found):
    """Something has to be so in one of several tries: each can be spoiled by a machine that stands still for as long as a node gives to
    its clients."""
    expect(f"{what}, in one of {TRIES} tries", any(found() for _ in range(TRIES)), True)


def together(works):
    """Does all of these side by side; the first fault is told once all have ended."""
    faults = []

    def do(work):
        try:
            work()
        except Exception as fault:
            faults.append(fault)

    threads = [threading.Thread(target=do, args=(work,)) for work in works]
    for thread in threads:
        thread.start()
    for thread in threads:
        thread.join()
    if faults:
        raise faults[0]


def name():
    """The check that runs."""
    return f"check/{os.path.basename(sys.argv[0])}"


def say(text):
    print(f"{name()}: {text}", flush=True)


def skip(what):
    """What can't be tried on this machine. `check/all` says it once more at its end."""
    say(f"skipped: {what}")


def timed(check, *words):
    """Does a check, and says that it passed, what it has found, and how long it took."""
    begun = time.monotonic()
    found = check(*words)
    say(f"{check.__name__.replace('_', ' ')}{f', {found}' if found else ''}, {time.monotonic() - begun:.1f} s")


def try_each(checks, chosen=(), *words):
    """Does these checks in turn, or of them those whose names are chosen."""
    known = {check.__name__ for check in checks}
    for one in chosen:
        if one not in known:
            raise Wrong(f"there is no check {one}")
    for check in checks:
        if not chosen or check.__name__ in chosen:
            timed(check, *words)


def ended_by(main):
    """Does the whole of a check, which ends with status 1 where something is wrong."""
    try:
        main()
    except Wrong as wrong:
        print(f"{name()}: {wrong}", file=sys.stderr)
        sys.exit(1)
