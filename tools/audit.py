"""Asks the program `audit` whether readers were safe at each moment of a run."""
import os
import subprocess

from job_runs import TOP

PROGRAM = f"{TOP}/audit"


def audit(trace):
    """The first line that `audit` prints of the text of a trace, or `-` if there is no such program."""
    if not os.access(PROGRAM, os.X_OK) or os.path.isdir(PROGRAM):
        return "-"
    ran = subprocess.run([PROGRAM], input=trace.encode(), capture_output=True)
    said = ran.stdout.decode(errors="replace").split("\n")[0]
    return said or f"no answer: audit ended with status {ran.returncode}"
