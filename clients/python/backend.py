"""Builds the package of the client, with the standard library alone, so that `pip install ./clients/python` needs no network.

A wheel has the one file apsp.py as the package apsp, its mark that it is typed, and the built program, where this checkout
or APSP_PROGRAM has one.
"""

import base64
import hashlib
import os
import tarfile
import zipfile

HERE = os.path.dirname(os.path.abspath(__file__))
NAME, VERSION = "apsp", "0.1.0"
METADATA = f"""Metadata-Version: 2.1
Name: {NAME}
Version: {VERSION}
Summary: A client of apsp: all shortest paths of a directed graph whose edges change
Requires-Python: >=3.8
"""


def program():
    """The built program, if there is one."""
    built = os.environ.get("APSP_PROGRAM") or os.path.join(HERE, "..", "..", "crates", "apsp", "out", "apsp")
    return built if os.path.isfile(built) and os.access(built, os.X_OK) else None


def contents():
    """The files of a wheel: name, bytes, and whether it can be run."""
    with open(os.path.join(HERE, "apsp.py"), "rb") as file:
        yield f"{NAME}/__init__.py", file.read(), False
    yield f"{NAME}/py.typed", b"", False
    built = program()
    if built:
        with open(built, "rb") as file:
            yield f"{NAME}/bin/apsp", file.read(), True
    info, tag = f"{NAME}-{VERSION}.dist-info", tag_of()
    yield f"{info}/METADATA", METADATA.encode(), False
    yield f"{info}/WHEEL", f"Wheel-Version: 1.0\nGenerator: apsp\nRoot-Is-Purelib: {not built}\nTag: {tag}\n".encode(), False


def tag_of():
    return "py3-none-linux_x86_64" if program() else "py3-none-any"


def build_wheel(wheel_directory, config_settings=None, metadata_directory=None):
    name, record = f"{NAME}-{VERSION}-{tag_of()}.whl", []
    with zipfile.ZipFile(os.path.join(wheel_directory, name), "w", zipfile.ZIP_DEFLATED) as wheel:
        def put(path, data, runs):
            entry = zipfile.ZipInfo(path)
            entry.external_attr = (0o100755 if runs else 0o100644) << 16
            entry.compress_type = zipfile.ZIP_DEFLATED
            wheel.writestr(entry, data)

        for path, data, runs in contents():
            digest = base64.urlsafe_b64encode(hashlib.sha256(data).digest()).rstrip(b"=").decode()
            record.append(f"{path},sha256={digest},{len(data)}\n")
            put(path, data, runs)
        last = f"{NAME}-{VERSION}.dist-info/RECORD"
        put(last, ("".join(record) + f"{last},,\n").encode(), False)
    return name


def build_sdist(sdist_directory, config_settings=None):
    name = f"{NAME}-{VERSION}.tar.gz"
    with tarfile.open(os.path.join(sdist_directory, name), "w:gz") as archive:
        for file in ("apsp.py", "backend.py", "pyproject.toml"):
            archive.add(os.path.join(HERE, file), f"{NAME}-{VERSION}/{file}")
    return name
