"""A copy of the project in which `install` and `package` can be tried without a built program."""
import shutil
import subprocess
from pathlib import Path

ROOT = Path(__file__).resolve().parent.parent


def stand_in(copy):
    """A copy of what `install` and `package` need, with a script in the program's place."""
    for name in ("install", "package", "corr", "crates.txt", "README.md", "CHANGELOG.md", "contrib", "docs", "examples"):
        source = ROOT / name
        copy.mkdir(exist_ok=True)
        if source.is_dir():
            shutil.copytree(source, copy / name, ignore=shutil.ignore_patterns("__pycache__"))
        else:
            shutil.copy2(source, copy / name)
    program = copy / "crates/corr_cli/out/corr_cli"
    program.parent.mkdir(parents=True)
    program.write_text('#!/bin/sh\necho "stand-in $*"\n')
    program.chmod(0o755)
    return program


def command(path, *words):
    ended = subprocess.run([str(path), *words], stdin=subprocess.DEVNULL, capture_output=True, text=True, check=False)
    return ended.stdout, ended.returncode
