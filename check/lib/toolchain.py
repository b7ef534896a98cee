#!/usr/bin/env python3
"""Whether this toolchain's `rt ci` keeps what has passed, so that a second run of it takes minutes.

    check/lib/toolchain.py     ends with status 0 if so, and else with 1
"""
import subprocess
import sys
import tempfile


def keeps_what_passed():
    """Where it does, `rt ci` knows the word --anew, which leaves aside what was kept; elsewhere it shows how rt is called."""
    with tempfile.TemporaryDirectory() as room:
        said = subprocess.run(["rt", "ci", "--anew"], cwd=room, capture_output=True, text=True, check=False)
    return "usage:" not in said.stdout + said.stderr


if __name__ == "__main__":
    sys.exit(0 if keeps_what_passed() else 1)
