"""What all tests have in common: the program that they run, and the folder that they run in."""

import os
import sys
from pathlib import Path

TOP = Path(__file__).resolve().parent.parent

os.environ.setdefault("TWARP", str(TOP / "crates" / "twarp" / "out" / "twarp"))
os.environ["TWARP"] = os.path.abspath(os.environ["TWARP"])
os.environ["PYTHONPATH"] = os.pathsep.join(
    [str(TOP / "python" / "src"), *filter(None, [os.environ.get("PYTHONPATH")])]
)
os.chdir(TOP)
sys.dont_write_bytecode = True
