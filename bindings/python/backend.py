"""What pip calls to make the package (PEP 517): links the shared object by ./build and writes the wheel. It needs a checkout with the archives built."""

from __future__ import annotations

import base64
import hashlib
import re
import subprocess
import sys
import sysconfig
import zipfile
from pathlib import Path
from typing import Any, Dict, NoReturn, Optional

HERE = Path(__file__).resolve().parent
PACKAGE = HERE / "mewikofu"
FILES = "__init__.py", "py.typed", "libmewikofu.so"


def version() -> str:
    found = re.search(r'^__version__ = "([^"]+)"$', (PACKAGE / "__init__.py").read_text(encoding="utf-8"), re.MULTILINE)
    if not found:
        sys.exit("mewikofu/__init__.py has no __version__")
    return found[1]


def metadata() -> str:
    return (
        f"Metadata-Version: 2.1\nName: mewikofu\nVersion: {version()}\nSummary: Settlement of gas days by proved code\n"
        "Requires-Python: >=3.8\nDescription-Content-Type: text/markdown\n\n" + (HERE / "README.md").read_text(encoding="utf-8")
    )


def build_wheel(wheel_directory: str, config_settings: Optional[Dict[str, Any]] = None, metadata_directory: Optional[str] = None) -> str:
    # What ./build says goes to standard error, and where it fails pip shows it.
    if subprocess.run([str(HERE / "build")], stdout=sys.stderr, check=False).returncode != 0:
        sys.exit("bindings/python/build failed: the wheel has the shared object in it, which is linked from the archives of target/staticlib")
    # Any Python 3 of this kind of machine: the shared object is called by ctypes.
    tag = "py3-none-" + re.sub(r"[-.]", "_", sysconfig.get_platform())
    info = f"mewikofu-{version()}.dist-info"
    contents = {f"mewikofu/{name}": (PACKAGE / name).read_bytes() for name in FILES}
    contents[f"{info}/METADATA"] = metadata().encode()
    contents[f"{info}/WHEEL"] = f"Wheel-Version: 1.0\nGenerator: mewikofu\nRoot-Is-Purelib: false\nTag: {tag}\n".encode()
    record = "".join(f"{name},sha256={digest(data)},{len(data)}\n" for name, data in contents.items())
    contents[f"{info}/RECORD"] = f"{record}{info}/RECORD,,\n".encode()
    wheel = f"mewikofu-{version()}-{tag}.whl"
    with zipfile.ZipFile(Path(wheel_directory) / wheel, "w", zipfile.ZIP_DEFLATED) as file:
        for name, data in contents.items():
            file.writestr(name, data)
    return wheel


def digest(data: bytes) -> str:
    return base64.urlsafe_b64encode(hashlib.sha256(data).digest()).rstrip(b"=").decode()


def build_sdist(sdist_directory: str, config_settings: Optional[Dict[str, Any]] = None) -> NoReturn:
    sys.exit("there is no source distribution: the archives are proved and built in the repository")
