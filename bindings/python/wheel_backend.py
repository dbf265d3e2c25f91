"""Makes the wheel that `pip install` of this folder installs (PEP 517).

The library goes into it where target/lib of the checkout, or the package, has one.
"""

import base64
import hashlib
import re
import zipfile
from pathlib import Path
from typing import Dict, List, Optional

HERE = Path(__file__).resolve().parent
LIBRARY = "libmetzurgo.so"
# The command is a script of sh: Python does not start where standard input is a folder, so that is
# closed first, and the command says itself that it cannot be read. pip puts the interpreter into the
# first line of the script that it starts.
SCRIPTS = {
    "metzurgo": """\
#!/bin/sh
if [ -d /dev/stdin ]; then exec <&-; fi
here=$(readlink -f "$0")
exec "${here%/*}/metzurgo-python" "$@"
""",
    "metzurgo-python": """\
#!python
import sys

from metzurgo.__main__ import main

sys.exit(main())
""",
}


def version() -> str:
    text = (HERE / "metzurgo" / "__init__.py").read_text(encoding="utf-8")
    found = re.search(r'^__version__ = "(.*)"$', text, re.M)
    assert found
    return found[1]


def library() -> Optional[Path]:
    places = [HERE / "metzurgo" / LIBRARY, HERE.parent.parent / "target" / "lib" / LIBRARY]
    return next((place for place in places if place.exists()), None)


def contents(info: str, tag: str) -> Dict[str, bytes]:
    """The files of the wheel, but for its record."""
    files = {}
    for path in sorted((HERE / "metzurgo").rglob("*")):
        if path.suffix == ".py" or path.name == "py.typed":
            files[path.relative_to(HERE).as_posix()] = path.read_bytes()
    found = library()
    if found:
        files[f"metzurgo/{LIBRARY}"] = found.read_bytes()
    pure = "false" if found else "true"
    about = [
        "Metadata-Version: 2.1",
        "Name: metzurgo",
        f"Version: {version()}",
        "Summary: Judges rigs of SAS expanders and fills their routing tables",
        "Requires-Python: >=3.8",
    ]
    wheel = ["Wheel-Version: 1.0", "Generator: metzurgo", f"Root-Is-Purelib: {pure}", f"Tag: {tag}"]
    files[f"{info}/METADATA"] = "".join(f"{line}\n" for line in about).encode()
    files[f"{info}/WHEEL"] = "".join(f"{line}\n" for line in wheel).encode()
    for name, script in SCRIPTS.items():
        files[f"metzurgo-{version()}.data/scripts/{name}"] = script.encode()
    return files


def build_wheel(
    wheel_directory: str, config_settings: object = None, metadata_directory: object = None
) -> str:
    """Writes the wheel and returns its name, as pip asks."""
    tag = "py3-none-linux_x86_64" if library() else "py3-none-any"
    info = f"metzurgo-{version()}.dist-info"
    name = f"metzurgo-{version()}-{tag}.whl"
    record: List[str] = []
    with zipfile.ZipFile(Path(wheel_directory) / name, "w", zipfile.ZIP_DEFLATED) as wheel:
        for path, content in contents(info, tag).items():
            digest = base64.urlsafe_b64encode(hashlib.sha256(content).digest()).rstrip(b"=")
            record.append(f"{path},sha256={digest.decode()},{len(content)}")
            entry = zipfile.ZipInfo(path)
            mode = 0o100755 if "/scripts/" in path else 0o100644
            entry.external_attr, entry.compress_type = mode << 16, zipfile.ZIP_DEFLATED
            wheel.writestr(entry, content)
        record.append(f"{info}/RECORD,,")
        wheel.writestr(f"{info}/RECORD", "".join(f"{line}\n" for line in record))
    return name
