"""Runs the program once, for the scripts that measure it."""
import os
import pathlib
import subprocess
import sys
import time

PROGRAM = pathlib.Path(__file__).resolve().parent.parent / "crates/detock/out/detock"


def run(words):
    """Runs this command line without its output: the wall time, and the processor time in user mode and for the system."""
    start = time.perf_counter()
    child = subprocess.Popen([str(it) for it in words], stdout=subprocess.DEVNULL)
    _, status, used = os.wait4(child.pid, 0)
    wall = time.perf_counter() - start
    if status:
        sys.exit(f"{words[0]}: it ended with {os.waitstatus_to_exitcode(status)}")
    return wall, used.ru_utime + used.ru_stime
