"""The build backend of the Python host, which pip calls (PEP 517): makes the shared library that the package loads, of
the machine's own archive, and packs both into a wheel.

Environment: SKUMVARI_ARCHIVE, the archive's folder (default target/staticlib of the repository); CC, the compiler
(default cc). A Python that is to run on another processor needs the archive of that one.
"""

import base64
import hashlib
import os
import subprocess
import sys
import sysconfig
import tempfile
import zipfile
from pathlib import Path

NAME, VERSION = "skumvari", "0.1.0"

HERE = Path(__file__).resolve().parent

METADATA = f"""Metadata-Version: 2.1
Name: {NAME}
Version: {VERSION}
Summary: Proved reader of ICM 1.1 interconnect model files
Requires-Python: >=3.9
"""

# The package has no code that depends on the Python, only on the machine that the library is for.
TAG = f"py3-none-{sysconfig.get_platform().replace('-', '_').replace('.', '_')}"

WHEEL = f"""Wheel-Version: 1.0
Generator: {NAME}
Root-Is-Purelib: false
Tag: {TAG}
"""


class UnsupportedOperation(Exception):
    """What this backend does not do, as PEP 517 has it."""


def build_sdist(sdist_directory, config_settings=None):
    raise UnsupportedOperation("the package is made in the repository, where the archive is")


def build_wheel(wheel_directory, config_settings=None, metadata_directory=None):
    """Writes the wheel and tells its name."""
    package = HERE / "src" / NAME
    files = {f"{NAME}/{path.name}": path.read_bytes() for path in sorted(package.iterdir()) if path.is_file()}
    files[f"{NAME}/libskumvari.so"] = shared_library()
    folder = f"{NAME}-{VERSION}.dist-info"
    files[f"{folder}/METADATA"] = METADATA.encode()
    files[f"{folder}/WHEEL"] = WHEEL.encode()
    record = "".join(f"{path},sha256={digest(content)},{len(content)}\n" for path, content in files.items())
    files[f"{folder}/RECORD"] = f"{record}{folder}/RECORD,,\n".encode()
    name = f"{NAME}-{VERSION}-{TAG}.whl"
    with zipfile.ZipFile(Path(wheel_directory, name), "w", zipfile.ZIP_DEFLATED) as wheel:
        for path, content in files.items():
            wheel.writestr(path, content)
    return name


def digest(content):
    return base64.urlsafe_b64encode(hashlib.sha256(content).digest()).rstrip(b"=").decode()


def shared_library():
    """The archive as a shared library."""
    archive = Path(os.environ.get("SKUMVARI_ARCHIVE") or HERE.parents[1] / "target" / "staticlib", "libskumvari.a")
    if not archive.is_file():
        sys.exit(f"no {archive}: make it with hosts/archive, or name its folder in SKUMVARI_ARCHIVE")
    with tempfile.TemporaryDirectory() as folder:
        library = Path(folder, "libskumvari.so")
        whole = ["-Wl,--whole-archive", str(archive), "-Wl,--no-whole-archive"]
        try:
            subprocess.run([os.environ.get("CC") or "cc", "-shared", *whole, "-o", str(library)], check=True)
        except (OSError, subprocess.CalledProcessError) as error:
            sys.exit(f"no shared library of {archive}, which has to be for this machine: {error}")
        return library.read_bytes()
