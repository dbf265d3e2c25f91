"""What the tests share: running the command, the samples, the pair rig."""

import contextlib
import io
import os
import subprocess
import sys
import tempfile
import unittest
from pathlib import Path
from typing import Any, List, NamedTuple
from unittest import mock

from metzurgo.__main__ import main

ROOT = Path(__file__).resolve().parents[3]
SAMPLES = ROOT / "samples"


class Ran(NamedTuple):
    """Exit status, standard output and standard error of a command."""

    status: Any
    out: str
    err: str
    raw: bytes


def run(*arguments: Any, stdin: bytes = b"") -> Ran:
    """Runs the command metzurgo in this process."""
    out, err = io.TextIOWrapper(io.BytesIO(), encoding="utf-8", newline="\n"), io.StringIO()
    given = io.TextIOWrapper(io.BytesIO(stdin), encoding="utf-8")
    with contextlib.redirect_stdout(out), contextlib.redirect_stderr(err):
        with mock.patch.object(sys, "stdin", given):
            try:
                status = main([str(argument) for argument in arguments])
            except SystemExit as end:
                status = end.code
    out.flush()
    raw = out.buffer.getvalue()  # type: ignore[attr-defined]
    return Ran(status, raw.decode("utf-8", "replace"), err.getvalue(), raw)


class FolderTest(unittest.TestCase):
    """A test with a folder of its own."""

    def setUp(self) -> None:
        folder = tempfile.TemporaryDirectory()
        self.addCleanup(folder.cleanup)
        self.folder = Path(folder.name)

    def path(self, name: str, content: Any = None) -> Path:
        """A file of the folder, with its content where one is given."""
        path = self.folder / name
        if isinstance(content, str):
            path.write_text(content, encoding="utf-8")
        elif content is not None:
            path.write_bytes(content)
        return path

    def command(self, *words: Any, **options: Any) -> "subprocess.Popen[str]":
        """Starts the command metzurgo in a process of its own."""
        environment = {**os.environ, "PYTHONPATH": str(ROOT / "bindings/python")}
        environment.update(options.pop("env", {}))
        return subprocess.Popen(
            [sys.executable, "-m", "metzurgo", *map(str, words)],
            env=environment,
            stderr=subprocess.PIPE,
            text=True,
            **options,
        )


def samples() -> List[Path]:
    return sorted(SAMPLES.glob("*.rig"))
