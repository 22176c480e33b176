"""Makes the wheel that `pip install ./embed/python` installs; it needs nothing that pip would have to fetch.

The package `tenphsar` is embed/tenphsar.py with the shared library beside it: the one that the variable
TENPHSAR_LIBRARY names, or else one that the C compiler makes of crates/tenphsar/out/libtenphsar.a and embed/heap.c.
"""

import base64
import hashlib
import os
import shutil
import subprocess
import sysconfig
import tempfile
import zipfile
from pathlib import Path

HERE = Path(__file__).resolve().parent
TOP = HERE.parents[1]
NAME = "tenphsar"
METADATA = """Metadata-Version: 2.1
Name: {name}
Version: {version}
Summary: A timing engine for SMIL 3.0 presentations
Requires-Python: >=3.10
"""
WHEEL = """Wheel-Version: 1.0
Generator: tenphsar
Root-Is-Purelib: false
Tag: {tag}
"""


def get_requires_for_build_wheel(config_settings=None):  # pylint: disable=unused-argument
    """What pip must fetch before it builds: nothing."""
    return []


def build_wheel(wheel_directory, config_settings=None, metadata_directory=None):  # pylint: disable=unused-argument
    """Writes the wheel into a folder, and gives its name. Raises RuntimeError where there is no library to put in."""
    version = (TOP / "VERSION").read_text().strip()
    tag = f"py3-none-{sysconfig.get_platform().replace('-', '_').replace('.', '_')}"
    about = f"{NAME}-{version}.dist-info"
    files = {f"{NAME}/__init__.py": (HERE / NAME / "__init__.py").read_bytes(),
             f"{NAME}/engine.py": (HERE.parent / "tenphsar.py").read_bytes(),
             f"{NAME}/libtenphsar.so": library(),
             f"{about}/METADATA": METADATA.format(name=NAME, version=version).encode(),
             f"{about}/WHEEL": WHEEL.format(tag=tag).encode()}
    files[f"{about}/RECORD"] = record(files, f"{about}/RECORD")
    wheel = f"{NAME}-{version}-{tag}.whl"
    with zipfile.ZipFile(Path(wheel_directory) / wheel, "w", zipfile.ZIP_DEFLATED) as packed:
        for path, data in files.items():
            packed.writestr(path, data)
    return wheel


def record(files, own):
    """The list of the wheel's files, with their sums and sizes."""
    lines = []
    for path, data in files.items():
        digest = base64.urlsafe_b64encode(hashlib.sha256(data).digest()).rstrip(b"=").decode()
        lines.append(f"{path},sha256={digest},{len(data)}\n")
    return "".join([*lines, f"{own},,\n"]).encode()


def library():
    """The bytes of the shared library."""
    told = os.environ.get("TENPHSAR_LIBRARY")
    if told:
        if not Path(told).is_file():
            raise RuntimeError(f"TENPHSAR_LIBRARY names {told}, and there is no such file")
        return Path(told).read_bytes()
    archive = TOP / "crates" / NAME / "out" / "libtenphsar.a"
    if not archive.exists():
        raise RuntimeError(f"there is no {archive}: run embed/build.py after `rt ci`, or name a shared library in "
                           "TENPHSAR_LIBRARY")
    if shutil.which("cc") is None:
        raise RuntimeError("there is no C compiler: name a shared library in TENPHSAR_LIBRARY")
    with tempfile.TemporaryDirectory() as folder:
        made = Path(folder) / "libtenphsar.so"
        subprocess.run(["cc", "-O2", "-shared", "-fPIC", "-s", HERE.parent / "heap.c", "-Wl,--whole-archive", archive,
                        "-Wl,--no-whole-archive", "-o", made], check=True)
        return made.read_bytes()
