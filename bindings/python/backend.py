"""Makes the wheel and the source archive, as `pip` and `build` ask for them; it needs nothing but Python.

The variable ESDK_LIBRARY names the folder with libesdk.so.1, which is put into the wheel. Without it the wheel has none,
and loads the one of the system. The same files give the same bytes.
"""

import base64
import gzip
import hashlib
import io
import os
import pathlib
import re
import tarfile
import tomllib
import zipfile

HERE = pathlib.Path(__file__).resolve().parent
LIBRARY = "libesdk.so.1"
LICENCE = "LICENSE"
# All files of a wheel or a source archive get this time, so that the same files give the same bytes.
MOMENT = (1980, 1, 1, 0, 0, 0)
SECONDS = 315532800


def project():
    return tomllib.loads((HERE / "pyproject.toml").read_text())["project"]


def library():
    folder = os.environ.get("ESDK_LIBRARY")
    return (pathlib.Path(folder) / LIBRARY).read_bytes() if folder else None


def tag(bytes_):
    """Of the newest C library whose names the library uses: so the wheel is taken only where that is there."""
    if bytes_ is None:
        return "py3-none-any"
    newest = max(int(number) for number in re.findall(rb"GLIBC_2\.(\d+)", bytes_))
    return f"py3-none-manylinux_2_{newest}_x86_64"


def licence():
    """Of the source archive, or of the checkout."""
    for folder in (HERE, HERE.parents[1]):
        if (folder / LICENCE).is_file():
            return (folder / LICENCE).read_bytes()
    raise FileNotFoundError(f"neither {HERE} nor the checkout around it has the file {LICENCE}")


def metadata():
    words = project()
    lines = [
        "Metadata-Version: 2.4",
        f"Name: {words['name']}",
        f"Version: {words['version']}",
        f"Summary: {words['description']}",
        f"License-Expression: {words['license']}",
        f"License-File: {LICENCE}",
        f"Requires-Python: {words['requires-python']}",
        "Description-Content-Type: text/markdown",
        "",
        (HERE / words["readme"]).read_text(),
    ]
    return "\n".join(lines).encode()


def files(bytes_, dist):
    """The names in the wheel and what they hold, but for the list of them."""
    for path in sorted((HERE / "esdk").iterdir()):
        if path.suffix == ".py" or path.name == "py.typed":
            yield f"esdk/{path.name}", path.read_bytes()
    if bytes_ is not None:
        yield f"esdk/{LIBRARY}", bytes_
    yield f"{dist}/METADATA", metadata()
    yield f"{dist}/licenses/{LICENCE}", licence()
    pure = "true" if bytes_ is None else "false"
    yield f"{dist}/WHEEL", f"Wheel-Version: 1.0\nGenerator: esdk\nRoot-Is-Purelib: {pure}\nTag: {tag(bytes_)}\n".encode()


def record(name, bytes_):
    digest = base64.urlsafe_b64encode(hashlib.sha256(bytes_).digest()).rstrip(b"=").decode()
    return f"{name},sha256={digest},{len(bytes_)}\n"


def build_wheel(wheel_directory, config_settings=None, metadata_directory=None):
    words, bytes_ = project(), library()
    dist = f"{words['name']}-{words['version']}.dist-info"
    listed = list(files(bytes_, dist))
    list_ = "".join(record(name, held) for name, held in listed) + f"{dist}/RECORD,,\n"
    wheel = f"{words['name']}-{words['version']}-{tag(bytes_)}.whl"
    with zipfile.ZipFile(pathlib.Path(wheel_directory) / wheel, "w", zipfile.ZIP_DEFLATED) as archive:
        for name, held in [*listed, (f"{dist}/RECORD", list_.encode())]:
            entry = zipfile.ZipInfo(name, MOMENT)
            entry.external_attr = 0o644 << 16
            entry.compress_type = zipfile.ZIP_DEFLATED
            archive.writestr(entry, held)
    return wheel


def sources():
    """The names in the source archive and what they hold."""
    yield "PKG-INFO", metadata()
    yield LICENCE, licence()
    for name in ("README.md", "backend.py", "pyproject.toml"):
        yield name, (HERE / name).read_bytes()
    for path in sorted((HERE / "esdk").iterdir()):
        if path.suffix == ".py" or path.name == "py.typed":
            yield f"esdk/{path.name}", path.read_bytes()


def build_sdist(sdist_directory, config_settings=None):
    words, room = project(), io.BytesIO()
    base = f"{words['name']}-{words['version']}"
    with tarfile.open(fileobj=room, mode="w", format=tarfile.PAX_FORMAT) as archive:
        for name, held in sources():
            entry = tarfile.TarInfo(f"{base}/{name}")
            entry.size, entry.mode, entry.mtime = len(held), 0o644, SECONDS
            archive.addfile(entry, io.BytesIO(held))
    (pathlib.Path(sdist_directory) / f"{base}.tar.gz").write_bytes(gzip.compress(room.getvalue(), mtime=0))
    return f"{base}.tar.gz"
