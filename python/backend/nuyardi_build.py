"""Builds the package for pip (PEP 517), using only the standard library.

A wheel contains the shared libraries if they exist: libnuyardi.so, as `make` builds it, or where the environment variable
NUYARDI_LIBRARY says; libnuyardi_explain.so in the same way, with NUYARDI_EXPLAIN_LIBRARY. Without libnuyardi.so the wheel is only
Python, and the library is looked for on the machine. The same files give the same wheel, byte for byte.
"""

import base64
import hashlib
import io
import os
import re
import sys
import tarfile
import zipfile
from pathlib import Path
from typing import Any, Dict, Optional

HERE = Path(__file__).resolve().parents[1]
ROOT = HERE.parent
#: Where each library is looked for, if its variable names no other place.
LIBRARIES = {
    "libnuyardi.so": ("NUYARDI_LIBRARY", ROOT / "target" / "libnuyardi.so"),
    "libnuyardi_explain.so": ("NUYARDI_EXPLAIN_LIBRARY", ROOT / "rust" / "target" / "release" / "libnuyardi_explain.so"),
}
EARLIEST = (1980, 1, 1, 0, 0, 0)


def version() -> str:
    """The version in the file VERSION; in a source archive, the one in its PKG-INFO."""
    information = HERE / "PKG-INFO"
    if information.is_file():
        found = re.search(r"^Version: (.+)$", information.read_text(encoding="utf-8"), re.MULTILINE)
        if found:
            return found.group(1)
    return (ROOT / "VERSION").read_text().strip()


def project(key: str) -> str:
    """A value of pyproject.toml that is one string."""
    page = (HERE / "pyproject.toml").read_text(encoding="utf-8")
    found = re.search(rf'^{key} = "(.*)"$', page, re.MULTILINE)
    if not found:
        raise KeyError(f"pyproject.toml has no {key}")
    return found.group(1)


def metadata() -> str:
    lines = [
        "Metadata-Version: 2.1",
        f"Name: {project('name')}",
        f"Version: {version()}",
        f"Summary: {project('description')}",
        f"Requires-Python: {project('requires-python')}",
        "Description-Content-Type: text/markdown",
    ]
    return "\n".join(lines) + "\n\n" + (HERE / project("readme")).read_text(encoding="utf-8")


def sources() -> Dict[str, bytes]:
    """The package's files by their place in a wheel; the version is filled in."""
    paths = sorted(path for path in (HERE / "nuyardi").iterdir() if path.suffix == ".py" or path.name == "py.typed")
    found = {f"nuyardi/{path.name}": path.read_bytes() for path in paths}
    found["nuyardi/_version.py"] = f'"""The version."""\n\n__version__ = "{version()}"\n'.encode()
    return found


def libraries() -> Dict[str, bytes]:
    found = {}
    for name, (variable, usual) in LIBRARIES.items():
        named = os.environ.get(variable)
        place = Path(named) if named else usual
        if named or place.is_file():
            found[f"nuyardi/{name}"] = place.read_bytes()
        else:
            print(f"{name} is not in the wheel: there is no {place}", file=sys.stderr)
    return found


def record(files: Dict[str, bytes], own: str) -> bytes:
    lines = []
    for name, content in files.items():
        digest = base64.urlsafe_b64encode(hashlib.sha256(content).digest()).rstrip(b"=").decode()
        lines.append(f"{name},sha256={digest},{len(content)}")
    return "\n".join([*lines, f"{own},,", ""]).encode()


def build_wheel(wheel_directory: str, config_settings: Optional[Dict[str, Any]] = None, metadata_directory: Optional[str] = None) -> str:
    inside = libraries()
    tag = "py3-none-linux_x86_64" if inside else "py3-none-any"
    information = f"nuyardi-{version()}.dist-info"
    pure = "false" if inside else "true"
    files = {**sources(), **inside, f"{information}/METADATA": metadata().encode()}
    words = f"Wheel-Version: 1.0\nGenerator: nuyardi_build\nRoot-Is-Purelib: {pure}\nTag: {tag}\n"
    files[f"{information}/WHEEL"] = words.encode()
    files[f"{information}/RECORD"] = record(files, f"{information}/RECORD")
    name = f"nuyardi-{version()}-{tag}.whl"
    with zipfile.ZipFile(Path(wheel_directory) / name, "w", zipfile.ZIP_DEFLATED) as wheel:
        for place, content in files.items():
            entry = zipfile.ZipInfo(place, EARLIEST)
            entry.compress_type = zipfile.ZIP_DEFLATED
            entry.external_attr = (0o755 if place.endswith(".so") else 0o644) << 16
            wheel.writestr(entry, content)
    return name


def build_sdist(sdist_directory: str, config_settings: Optional[Dict[str, Any]] = None) -> str:
    top = f"nuyardi-{version()}"
    files = {**sources(), "PKG-INFO": metadata().encode()}
    for name in ["pyproject.toml", "README.md", "backend/nuyardi_build.py"]:
        files[name] = (HERE / name).read_bytes()
    name = f"{top}.tar.gz"
    with tarfile.open(Path(sdist_directory) / name, "w:gz", format=tarfile.PAX_FORMAT) as archive:
        for place, content in files.items():
            entry = tarfile.TarInfo(f"{top}/{place}")
            entry.size = len(content)
            archive.addfile(entry, io.BytesIO(content))
    return name
