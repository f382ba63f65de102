"""Makes the package that pip installs, a wheel, by the interface that pip calls (PEP 517 and 660). The same sources give the same bytes."""

import base64
import hashlib
import re
import zipfile
from pathlib import Path

HERE = Path(__file__).resolve().parent
MODULE = HERE / "yoktvarim"
VERSION = re.search(r'^__version__ = "(.*?)"', (MODULE / "__init__.py").read_text("utf-8"), re.M).group(1)
INFO = f"yoktvarim-{VERSION}.dist-info"

METADATA = f"""\
Metadata-Version: 2.1
Name: yoktvarim
Version: {VERSION}
Summary: Tessellates patches by the Vulkan rules; every function of its library is proved
License: 0BSD
Requires-Python: >=3.8
Description-Content-Type: text/markdown

"""

WHEEL = """\
Wheel-Version: 1.0
Generator: build_wheel
Root-Is-Purelib: true
Tag: py3-none-any
"""


def recorded(name, data):
    """The line that says of a file how it is known again."""
    digest = base64.urlsafe_b64encode(hashlib.sha256(data).digest()).rstrip(b"=").decode()
    return f"{name},sha256={digest},{len(data)}\n"


def packed(folder, files):
    """Writes a wheel with these files, by name; gives its own name. Times and modes are the same whoever makes it."""
    files[f"{INFO}/METADATA"] = (METADATA + (HERE / "README.md").read_text("utf-8")).encode()
    files[f"{INFO}/WHEEL"] = WHEEL.encode()
    record = "".join(recorded(name, data) for name, data in files.items())
    files[f"{INFO}/RECORD"] = (record + f"{INFO}/RECORD,,\n").encode()
    wheel = f"yoktvarim-{VERSION}-py3-none-any.whl"
    with zipfile.ZipFile(Path(folder) / wheel, "w") as archive:
        for name, data in files.items():
            entry = zipfile.ZipInfo(name)
            entry.external_attr = 0o100644 << 16
            archive.writestr(entry, data)
    return wheel


def build_wheel(wheel_directory, config_settings=None, metadata_directory=None):
    """The module itself, for `pip install ./python`."""
    return packed(wheel_directory, {f"yoktvarim/{path.name}": path.read_bytes() for path in sorted(MODULE.glob("*.py"))})


def build_editable(wheel_directory, config_settings=None, metadata_directory=None):
    """The path of the module's folder, for `pip install --editable ./python`."""
    return packed(wheel_directory, {"yoktvarim.pth": f"{HERE}\n".encode()})
