"""Packs the client for pip, with the standard library alone: so it installs where nothing can be downloaded, and where no
setuptools is. It is the backend that `pyproject.toml` names (PEP 517, and PEP 660 for `pip install -e`)."""

import base64
import hashlib
import os
import re
import tarfile
import zipfile

HERE = os.path.dirname(os.path.dirname(os.path.abspath(__file__)))
NAME, PACKAGE = "kumovasil", "tardis"
with open(os.path.join(HERE, PACKAGE, "__init__.py"), encoding="utf-8") as _file:
    VERSION = re.search('^__version__ = "(.*)"$', _file.read(), re.MULTILINE).group(1)
INFO = "%s-%s.dist-info" % (NAME, VERSION)
WHEEL = "Wheel-Version: 1.0\nGenerator: packing\nRoot-Is-Purelib: true\nTag: py3-none-any\n"
METADATA = "\n".join([
    "Metadata-Version: 2.1", "Name: " + NAME, "Version: " + VERSION,
    "Summary: A client of a Kumovasil site: a key-value store that keeps forks and merges them", "Requires-Python: >=3.8", ""])
SCRIPTS = "[console_scripts]\nkumovasil = tardis.__main__:run\n"


def _package_files():
    """The package's files, as they are named in a wheel, and where they stand."""
    for folder, folders, names in os.walk(os.path.join(HERE, PACKAGE)):
        folders[:] = sorted(name for name in folders if name != "__pycache__")
        for name in sorted(names):
            if name.endswith((".py", ".typed", ".html")):
                path = os.path.join(folder, name)
                yield os.path.relpath(path, HERE).replace(os.sep, "/"), path


def _write_wheel(folder, files):
    """A wheel of these names and contents."""
    entries = dict(files)
    entries[INFO + "/METADATA"] = METADATA.encode()
    entries[INFO + "/WHEEL"] = WHEEL.encode()
    entries[INFO + "/entry_points.txt"] = SCRIPTS.encode()
    record = ["%s,sha256=%s,%d" % (name, base64.urlsafe_b64encode(hashlib.sha256(data).digest()).rstrip(b"=").decode(), len(data))
              for name, data in entries.items()]
    entries[INFO + "/RECORD"] = ("\n".join(record + [INFO + "/RECORD,,"]) + "\n").encode()
    made = "%s-%s-py3-none-any.whl" % (NAME, VERSION)
    with zipfile.ZipFile(os.path.join(folder, made), "w", zipfile.ZIP_DEFLATED) as wheel:
        for name, data in entries.items():
            wheel.writestr(name, data)
    return made


def build_wheel(wheel_directory, config_settings=None, metadata_directory=None):
    files = {}
    for name, path in _package_files():
        with open(path, "rb") as file:
            files[name] = file.read()
    return _write_wheel(wheel_directory, files)


def build_editable(wheel_directory, config_settings=None, metadata_directory=None):
    return _write_wheel(wheel_directory, {NAME + ".pth": (HERE + "\n").encode()})


def build_sdist(sdist_directory, config_settings=None):
    top = "%s-%s" % (NAME, VERSION)
    made = top + ".tar.gz"
    with tarfile.open(os.path.join(sdist_directory, made), "w:gz") as archive:
        for name in ["pyproject.toml", "build_backend/packing.py"]:
            archive.add(os.path.join(HERE, name), top + "/" + name)
        for name, path in _package_files():
            archive.add(path, top + "/" + name)
    return made
