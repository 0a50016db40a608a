"""The program `corr` as the tools run it: where it is, what it answers, and how it refuses."""
import os
import shutil
import subprocess
import sys
import tempfile
from pathlib import Path

from corr_report import NO_PROGRAM, Bad, plain, shortened

ANSWERED = (0, 1, 3)  # the statuses with which it has written an answer
REFUSED = 2
LETTERS = 200  # the most that is repeated of what it says


class ProgramMissing(Bad):
    """There is no program, or the launcher could build none."""

    def __init__(self, line):
        super().__init__(line, NO_PROGRAM)


class Refused(Bad):
    """The program refused its input: `line` is what it said. `places` has the places that the line names, where they are looked for."""

    def __init__(self, line):
        super().__init__(line)
        self.line, self.places = line, ()

    def __str__(self):
        if not self.places:
            return f"corr answered '{self.line}'; corr-where shows the place"
        return "\n".join(f"line {place.line}, column {place.column}: {place.said}\n{place.text.rstrip()}" for place in self.places)


def program():
    """The program's path: next to this folder in the project, below `bin` where it is installed, else on the path."""
    folder = Path(__file__).resolve().parent
    for near in (folder.parent / "corr", folder.parent.parent / "bin" / "corr"):
        if near.is_file() and os.access(near, os.X_OK):
            return str(near)
    found = shutil.which("corr")
    if found is None:
        raise ProgramMissing("the program corr is missing: it is neither next to the tools nor on the path")
    return found


def solve(game, notion=None):
    """The report of a game, both as bytes: of all notions, or of one."""
    return _answer(["solve"] + (["--notion", notion] if notion else []), game)


def check(report, game):
    """The verdict's line on a report, without its line end."""
    return _answer(["check"], report + game).decode().strip()


def _answer(words, given):
    path = program()
    with tempfile.TemporaryFile() as kept:  # a program that ends before it has read all of a pipe would end this one
        kept.write(given)
        kept.seek(0)
        try:
            ended = subprocess.run([path, *words], stdin=kept, stdout=subprocess.PIPE, stderr=_errors(), check=False)
        except OSError as fault:
            raise ProgramMissing(f"{path}: {fault.strerror}") from None
    if ended.returncode == REFUSED:
        raise Refused(_line(ended.stdout))
    if ended.returncode == NO_PROGRAM:
        raise ProgramMissing(_line(ended.stderr) or f"{path}: there is no program")
    if ended.returncode not in ANSWERED:
        raise Bad(_line(ended.stderr) or f"{path} ended with status {ended.returncode}", max(ended.returncode, NO_PROGRAM))
    return ended.stdout


def _errors():
    """Where the program's own lines go: to a terminal, where it also shows how long it has run."""
    return None if sys.stderr is not None and sys.stderr.isatty() else subprocess.PIPE


def _line(said):
    """The last line of what the program says."""
    lines = (said or b"").decode("utf-8", "replace").strip().split("\n")
    return shortened(plain(lines[-1]), LETTERS)
