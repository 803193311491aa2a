"""Builds the package `swap_party` for pip with nothing but the standard library, so that it installs
where there is no network: PEP 517 and PEP 660."""
from __future__ import annotations

import base64
import hashlib
import tarfile
import zipfile
from pathlib import Path
from typing import Any

HERE = Path(__file__).resolve().parent
NAME = "swap_party"
WHEEL = "Wheel-Version: 1.0\nGenerator: swap_party\nRoot-Is-Purelib: true\nTag: py3-none-any\n"


def version() -> str:
    """The one version number, which pyproject.toml states."""
    line = next(it for it in (HERE / "pyproject.toml").read_text().splitlines() if it.startswith("version = "))
    return line.split('"')[1]


def metadata() -> str:
    readme = (HERE / "README.md").read_text()
    return f"Metadata-Version: 2.1\nName: {NAME}\nVersion: {version()}\nRequires-Python: >=3.10\nDescription-Content-Type: text/markdown\n\n{readme}"


def digest_of(data: bytes) -> str:
    return base64.urlsafe_b64encode(hashlib.sha256(data).digest()).rstrip(b"=").decode()


def write_wheel(folder: str, files: dict[str, bytes]) -> str:
    """A wheel with these files, its metadata, and the record of all."""
    name, about = f"{NAME}-{version()}-py3-none-any.whl", f"{NAME}-{version()}.dist-info"
    files = {**files, f"{about}/METADATA": metadata().encode(), f"{about}/WHEEL": WHEEL.encode()}
    record = "".join(f"{path},sha256={digest_of(data)},{len(data)}\n" for path, data in files.items())
    with zipfile.ZipFile(Path(folder) / name, "w", zipfile.ZIP_DEFLATED) as wheel:
        for path, data in {**files, f"{about}/RECORD": f"{record}{about}/RECORD,,\n".encode()}.items():
            wheel.writestr(zipfile.ZipInfo(path, (1980, 1, 1, 0, 0, 0)), data)
    return name


def build_wheel(wheel_directory: str, config_settings: Any = None, metadata_directory: str | None = None) -> str:
    package = {f"{NAME}/{it.name}": it.read_bytes() for it in sorted((HERE / NAME).iterdir()) if it.suffix == ".py" or it.name == "py.typed"}
    return write_wheel(wheel_directory, package)


def build_editable(wheel_directory: str, config_settings: Any = None, metadata_directory: str | None = None) -> str:
    return write_wheel(wheel_directory, {f"{NAME}.pth": f"{HERE}\n".encode()})


def build_sdist(sdist_directory: str, config_settings: Any = None) -> str:
    name = f"{NAME}-{version()}"
    with tarfile.open(Path(sdist_directory) / f"{name}.tar.gz", "w:gz") as packed:
        for it in ("pyproject.toml", "README.md", "build_backend.py", NAME):
            packed.add(HERE / it, f"{name}/{it}", filter=lambda entry: None if "__pycache__" in entry.name else entry)
    return f"{name}.tar.gz"
