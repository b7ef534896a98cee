"""`kegctl` as an operator calls it."""
import os
import subprocess

from lib.patience import patience


def caller(program):
    """What calls it with these words; its status, and what it says on standard output and standard error."""
    program = os.path.abspath(program)

    def kegctl(*words):
        ended = subprocess.run([program, *map(str, words)], capture_output=True, text=True, timeout=patience())
        return ended.returncode, ended.stdout, ended.stderr

    return kegctl
