"""Makes the wheel of the module, for `pip wheel` and `pip install`: the module with the shared library that `make -C bindings` made.

It needs nothing but Python, and no network. The same files make the same octets.
"""

import base64
import hashlib
import os
import zipfile

HERE = os.path.dirname(os.path.abspath(__file__))
# what the module shares with the scripts of this repository
SHARED = [os.path.join(HERE, "..", "..", "tools", it) for it in ("answers.py", "elements.py")]
LIBRARY = os.path.join(os.environ.get("BUILD") or os.path.join(HERE, "..", "out"), "libeds.so.0")
VERSION = "0.1"
TAG = "py3-none-linux_x86_64"
METADATA = f"""Metadata-Version: 2.1
Name: eds
Version: {VERSION}
Summary: Compiler and device host for electronic data sheets
Requires-Python: >=3.9
"""
WHEEL = f"""Wheel-Version: 1.0
Generator: eds
Root-Is-Purelib: false
Tag: {TAG}
"""


def _files():
    """Each file of the wheel and its octets."""
    if not os.path.exists(LIBRARY):
        raise SystemExit("there is no shared library yet: make -C bindings makes it")
    module = os.path.join(HERE, "eds")
    paths = [os.path.join(module, it) for it in sorted(os.listdir(module)) if it.endswith((".py", ".typed"))]
    names = [(f"eds/{os.path.basename(it)}", it) for it in [*paths, *SHARED]]
    for name, path in [*names, ("eds/libeds.so.0", LIBRARY)]:
        with open(path, "rb") as file:
            yield name, file.read()
    yield f"eds-{VERSION}.dist-info/METADATA", METADATA.encode()
    yield f"eds-{VERSION}.dist-info/WHEEL", WHEEL.encode()


def build_wheel(wheel_directory, config_settings=None, metadata_directory=None):
    name, record = f"eds-{VERSION}-{TAG}.whl", f"eds-{VERSION}.dist-info/RECORD"
    rows = []
    with zipfile.ZipFile(os.path.join(wheel_directory, name), "w", zipfile.ZIP_DEFLATED) as wheel:
        for file, octets in _files():
            wheel.writestr(zipfile.ZipInfo(file), octets, zipfile.ZIP_DEFLATED)
            digest = base64.urlsafe_b64encode(hashlib.sha256(octets).digest()).rstrip(b"=").decode()
            rows.append(f"{file},sha256={digest},{len(octets)}\n")
        wheel.writestr(zipfile.ZipInfo(record), "".join([*rows, f"{record},,\n"]))
    return name
