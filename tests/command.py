"""Runs the built command as a process."""

import subprocess
import tempfile

# A longer run has hung.
SECONDS = 60


class Ran:
    """What a process answered: its exit status, and what it wrote on standard output and standard error.

    It is no tuple: pytest would compare the bytes of two line by line, and these may be 64 MB.
    """

    def __init__(self, status, output=b"", message=b""):
        self.status, self.output, self.message = status, output, message

    def __eq__(self, other):
        return (self.status, self.output, self.message) == (other.status, other.output, other.message)

    def __repr__(self):
        return f"status {self.status}, output {shortened(self.output)}, message {shortened(self.message)}"


def refused(message, output=b""):
    """Status 1, a line, and what precedes the fault."""
    return Ran(1, output, message.encode() + b"\n")


def shortened(text):
    """The bytes as Python writes them; only the first of many, with their number."""
    if len(text) <= 80:
        return repr(text)
    return f"{text[:60]!r}.. ({len(text)} bytes)"


class Program:
    """The executable; each run starts it again."""

    def __init__(self, path):
        self.path = path

    def run(self, line, input=b"", **how):
        """Runs the command with the arguments of a line; `how` is passed on to `subprocess.run`. A file is faster than a pipe."""
        how = {"stdout": subprocess.PIPE, "stderr": subprocess.PIPE} | how
        with tempfile.TemporaryFile() as file:
            if "stdin" not in how:
                file.write(input)
                file.seek(0)
                how["stdin"] = file
            done = subprocess.run([self.path, *line.split()], timeout=SECONDS, check=False, **how)
        return Ran(done.returncode, done.stdout or b"", done.stderr or b"")
