"""Libraries that stand in for what the system does for a process."""
import os
import shutil
import subprocess

from lib.expect import skip

# What a process takes for the time since 1970, by so many seconds beside it, which stand in a file.
CLOCK = r"""
#define _GNU_SOURCE
#include <stdio.h>
#include <stdlib.h>
#include <sys/syscall.h>
#include <time.h>
#include <unistd.h>
int clock_gettime(clockid_t clock, struct timespec *at) {
  long done = syscall(SYS_clock_gettime, clock, at), beside = 0;
  FILE *file = clock == CLOCK_REALTIME ? fopen(getenv("BESIDE"), "r") : NULL;
  if (file) {
    if (fscanf(file, "%ld", &beside) == 1) at->tv_sec += beside;
    fclose(file);
  }
  return done;
}
"""


def shim(folder, what, text):
    """The environment in which a library of this text stands before the C library; none where there is no cc to make it, which is said
    to leave something untried."""
    if shutil.which("cc") is None:
        skip(f"{what}, since no cc is here")
        return None
    source, library = f"{folder}/shim.c", f"{folder}/shim.so"
    with open(source, "w", encoding="utf-8") as file:
        file.write(text)
    subprocess.run(["cc", "-shared", "-fPIC", "-O1", "-o", library, source], check=True)
    return os.environ | {"LD_PRELOAD": library}
