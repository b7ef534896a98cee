"""strace, which says what a process asks of the system."""
import shutil
import subprocess

from lib.expect import skip


def is_there():
    """Whether it is here and may watch a process; where it isn't, or may not, a line says that all is left untried."""
    if shutil.which("strace") and subprocess.run(["strace", "-o", "/dev/null", "true"], stderr=subprocess.DEVNULL).returncode == 0:
        return True
    skip("all of it: strace is not here, or may not watch a process")
    return False
