"""Where the tests and examples of this folder find the plugin, and the library that `make clients` builds. If it is
not built, an installed package has its own."""
import os
from pathlib import Path

BUILT = Path(__file__).resolve().parent.parent / "crates" / "libufs" / "out" / "libufs.so"
if BUILT.is_file():
    os.environ.setdefault("BUTCHERFORD_LIBRARY", str(BUILT))

pytest_plugins = ("butcherford.pytest_plugin", "pytester")
