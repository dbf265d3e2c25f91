"""Runs all tests: python3 bindings/python/tests [-q|-v]."""

import sys
import unittest
from pathlib import Path

sys.dont_write_bytecode = True
PYTHON = Path(__file__).resolve().parent.parent
sys.path.insert(0, str(PYTHON))
if __name__ == "__main__":
    where = ["discover", "-s", str(PYTHON / "tests"), "-t", str(PYTHON)]
    unittest.main(module=None, argv=["tests", *where, *sys.argv[1:]])
