"""Runs a program and says how long it took and how much memory it had at most."""
import os
import shutil
import signal
import subprocess
import tempfile
import threading
import time
from pathlib import Path
from typing import NamedTuple, Optional

ROOT = Path(__file__).resolve().parent.parent


class Run(NamedTuple):
    seconds: float
    memory: Optional[float]  # in MB; None where there is no `time`
    output: str


def built():
    """The program itself, which the launcher builds where its sources are newer."""
    subprocess.run([str(ROOT / "corr"), "solve"], stdin=subprocess.DEVNULL, stdout=subprocess.DEVNULL, check=False)
    return str(ROOT / "crates/corr_cli/out/corr_cli")


def run(command, source, limit):
    """A run with this file as its input; None where the limit was passed.

    The system counts the memory of a child from before it becomes another program. So a child of Python has Python's at least, and `time`,
    which is small, stands between the two.
    """
    watcher = shutil.which("time")
    with open(source, "rb") as given, tempfile.TemporaryDirectory() as folder:
        said, out = Path(folder) / "said", Path(folder) / "out"
        words = [watcher, "-f", "%M", "-o", str(said), *command] if watcher else command
        with open(out, "wb") as printed:
            start = time.monotonic()
            child = subprocess.Popen(words, stdin=given, stdout=printed, stderr=subprocess.DEVNULL, cwd=folder, start_new_session=True)
            stop = threading.Timer(limit, os.killpg, (child.pid, signal.SIGKILL))
            stop.start()
            child.wait()
            seconds = time.monotonic() - start
            stop.cancel()
        if child.returncode == -signal.SIGKILL:
            return None
        memory = int(said.read_text().split()[-1]) / 1024 if watcher else None
        return Run(seconds, memory, out.read_text(errors="replace"))


def least(times, *words):
    """The fastest of so many runs; None where one passed the limit."""
    runs = [run(*words) for _ in range(times)]
    return None if None in runs else min(runs, key=lambda one: one.seconds)


def megabytes(memory):
    return "?" if memory is None else f"{memory:.1f}"
