"""Reads the project's scripts, whose files have no ending, as modules."""
import sys
from importlib.machinery import SourceFileLoader
from importlib.util import module_from_spec, spec_from_loader
from pathlib import Path

ROOT = Path(__file__).resolve().parent.parent
sys.dont_write_bytecode = True


def script(path):
    """What the script at this path below the project defines."""
    loader = SourceFileLoader(Path(path).name, str(ROOT / path))
    module = module_from_spec(spec_from_loader(loader.name, loader))
    loader.exec_module(module)
    return module
