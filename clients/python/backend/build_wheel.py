"""Makes the wheel and the source archive of this folder, by PEP 517, with the standard library alone."""
import base64
import hashlib
import io
import pathlib
import re
import tarfile
import zipfile

TOP = pathlib.Path(__file__).resolve().parent.parent
PACKAGE = TOP / "macaroond"
WHEEL = "Wheel-Version: 1.0\nGenerator: build_wheel\nRoot-Is-Purelib: true\nTag: py3-none-any\n"
SOURCES = ["pyproject.toml", "CHANGELOG.md", "backend/build_wheel.py"]


def told(field):
    """A field of pyproject.toml, which Python before 3.11 has no reader for."""
    return re.search(rf'^{field} = "(.*)"$', (TOP / "pyproject.toml").read_text(), re.MULTILINE)[1]


def metadata():
    fields = {
        "Metadata-Version": "2.1",
        "Name": told("name"),
        "Version": told("version"),
        "Summary": told("description"),
        "Requires-Python": told("requires-python"),
    }
    return "".join(f"{name}: {value}\n" for name, value in fields.items())


def modules():
    """The package's files, by their names in an archive."""
    found = sorted(path for path in PACKAGE.rglob("*") if path.suffix == ".py" or path.name == "py.typed")
    return {path.relative_to(TOP).as_posix(): path.read_bytes() for path in found}


def record_line(name, content):
    digest = base64.urlsafe_b64encode(hashlib.sha256(content).digest()).rstrip(b"=").decode()
    return f"{name},sha256={digest},{len(content)}\n"


def build_wheel(wheel_directory, config_settings=None, metadata_directory=None):
    """The wheel's name; PEP 517 names the call and its arguments."""
    stem = f"{told('name')}-{told('version')}"
    info = f"{stem}.dist-info"
    files = {**modules(), f"{info}/METADATA": metadata().encode(), f"{info}/WHEEL": WHEEL.encode()}
    record = "".join(record_line(name, content) for name, content in files.items()) + f"{info}/RECORD,,\n"
    name = f"{stem}-py3-none-any.whl"
    with zipfile.ZipFile(pathlib.Path(wheel_directory) / name, "w", zipfile.ZIP_DEFLATED) as wheel:
        for path, content in {**files, f"{info}/RECORD": record.encode()}.items():
            # An entry without a time: the same sources make the same wheel.
            wheel.writestr(zipfile.ZipInfo(path), content, zipfile.ZIP_DEFLATED)
    return name


def build_sdist(sdist_directory, config_settings=None):
    """The source archive's name; PEP 517 names the call and its arguments."""
    stem = f"{told('name')}-{told('version')}"
    sources = {name: (TOP / name).read_bytes() for name in SOURCES}
    files = {"PKG-INFO": metadata().encode(), **sources, **modules()}
    with tarfile.open(pathlib.Path(sdist_directory) / f"{stem}.tar.gz", "w:gz", format=tarfile.PAX_FORMAT) as archive:
        for path, content in files.items():
            entry = tarfile.TarInfo(f"{stem}/{path}")
            entry.size = len(content)
            archive.addfile(entry, io.BytesIO(content))
    return f"{stem}.tar.gz"
