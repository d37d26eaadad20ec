"""What `pip install FOLDER/python` calls: it makes a wheel of the package beside it, and needs nothing that pip must fetch."""
import base64
import hashlib
import pathlib
import zipfile

PACKAGE = pathlib.Path(__file__).resolve().parent / "parsolve"
NAME, TAG = "parsolve-0.2.0", "py3-none-linux_x86_64"
METADATA = """Metadata-Version: 2.1
Name: parsolve
Version: 0.2.0
Summary: parity games, solved and checked by code that is proved
Requires-Python: >=3.9
"""
WHEEL = f"""Wheel-Version: 1.0
Generator: parsolve
Root-Is-Purelib: false
Tag: {TAG}
"""


def row(name, content):
    """The line of a file in the wheel's record."""
    digest = base64.urlsafe_b64encode(hashlib.sha256(content).digest()).rstrip(b"=").decode()
    return f"{name},sha256={digest},{len(content)}\n"


def library():
    """The shared object: the package's own, or the one in the folder lib/ beside this folder."""
    own, other = PACKAGE / "libparsolve.so", PACKAGE.parent.parent / "lib/libparsolve.so"
    return own if own.is_file() or not other.is_file() else other


def build_wheel(wheel_directory, config_settings=None, metadata_directory=None):
    """Writes the wheel into the folder, and returns its name."""
    files = {f"parsolve/{name}": (PACKAGE / name).read_bytes() for name in ("__init__.py", "py.typed")}
    files["parsolve/libparsolve.so"] = library().read_bytes()
    files |= {f"{NAME}.dist-info/METADATA": METADATA.encode(), f"{NAME}.dist-info/WHEEL": WHEEL.encode()}
    record = f"{NAME}.dist-info/RECORD"
    rows = "".join(row(name, content) for name, content in files.items()) + f"{record},,\n"
    with zipfile.ZipFile(pathlib.Path(wheel_directory) / f"{NAME}-{TAG}.whl", "w", zipfile.ZIP_DEFLATED) as wheel:
        for name, content in {**files, record: rows.encode()}.items():
            wheel.writestr(name, content)
    return f"{NAME}-{TAG}.whl"
