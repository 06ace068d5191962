"""Packs the module as a wheel, by Python's standard library alone: what `pip install --no-build-isolation .` asks for.

The shared library is the one in bidprice/ beside the module, and else that in out/ of the repository, which
`checks/library.sh` builds.
"""
import base64
import hashlib
import zipfile
from pathlib import Path

NAME, VERSION, TAG = "bidprice", "1", "py3-none-linux_x86_64"
HERE = Path(__file__).resolve().parent
METADATA = f"Metadata-Version: 2.1\nName: {NAME}\nVersion: {VERSION}\nRequires-Python: >=3.8\n"
WHEEL = f"Wheel-Version: 1.0\nGenerator: packed\nRoot-Is-Purelib: false\nTag: {TAG}\n"


def get_requires_for_build_wheel(config_settings=None):
    return []


def shared_library():
    """The bytes of the shared library."""
    for folder in (HERE / "bidprice", HERE.parent / "out"):
        if (folder / "libbidprice.so").exists():
            return (folder / "libbidprice.so").read_bytes()
    raise SystemExit("there is no libbidprice.so: run checks/library.sh first")


def build_wheel(wheel_directory, config_settings=None, metadata_directory=None):
    info = f"{NAME}-{VERSION}.dist-info"
    data = {
        "bidprice/__init__.py": (HERE / "bidprice" / "__init__.py").read_bytes(),
        "bidprice/libbidprice.so": shared_library(),
        f"{info}/METADATA": METADATA.encode(),
        f"{info}/WHEEL": WHEEL.encode(),
    }
    record = []
    name = f"{NAME}-{VERSION}-{TAG}.whl"
    with zipfile.ZipFile(Path(wheel_directory) / name, "w", zipfile.ZIP_DEFLATED) as wheel:
        for path, content in data.items():
            wheel.writestr(path, content)
            digest = base64.urlsafe_b64encode(hashlib.sha256(content).digest()).rstrip(b"=").decode()
            record.append(f"{path},sha256={digest},{len(content)}\n")
        wheel.writestr(f"{info}/RECORD", "".join(record) + f"{info}/RECORD,,\n")
    return name
