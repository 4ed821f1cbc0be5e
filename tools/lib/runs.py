"""Runs of the built program, and what differs from what is expected of them."""
import os
import re
import subprocess
import sys

TOP = os.path.dirname(os.path.dirname(os.path.dirname(os.path.abspath(__file__))))
PROGRAM = f"{TOP}/crates/cwr/out/cwr"
SAMPLES = f"{TOP}/samples"


def run(*words, stdin=b"", cwd=None, program=PROGRAM):
    """The status of a run, and the bytes on standard output and standard error."""
    ran = subprocess.run([program, *words], input=stdin, capture_output=True, check=False, cwd=cwd)
    return ran.returncode, ran.stdout, ran.stderr


def commands(program=PROGRAM):
    """The commands of the program, as its help lists them."""
    return re.findall(r"^  ([a-z]+)  +\S", run("help", program=program)[2].decode(), re.M)


class Differences:
    """What differs, in words. With STOP_AT_FIRST the first is printed, and nothing else is tried."""

    def __init__(self):
        self.found = []

    def add(self, line):
        """Notes what differs."""
        self.found.append(line)
        if os.environ.get("STOP_AT_FIRST"):
            print(line, flush=True)
            sys.exit(1)

    def expect(self, what, found, wanted):
        """Notes it where something else was found than what is wanted."""
        if found != wanted:
            self.add(f"{what}: {found!r}, and not {wanted!r}")

    def hold(self, what, well):
        """Notes what isn't so."""
        if not well:
            self.add(what)

    def told(self, name):
        """Prints each once, after the name of what was checked. The answer is the status: 1 where something differs."""
        for line in dict.fromkeys(self.found):
            print(f"{name}: {line}")
        return 1 if self.found else 0
