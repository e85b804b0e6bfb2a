"""The backend with which pip and build install and pack the package 'dekarino' from this folder: offline, and with only
Python (PEP 517, PEP 660). A wheel and an archive of sources contain the shared object and the programs. In a checkout
python/build makes these."""
import base64
import gzip
import hashlib
import io
import pathlib
import re
import subprocess
import tarfile
import zipfile

HERE = pathlib.Path(__file__).resolve().parent
ROOT = HERE.parent
LIBRARY, PROGRAMS = "libdekarino.so", ["apexports", "dekarino"]
# The record of what they are built from.
RECORD = "BUILT_FROM"
# The libraries that a wheel for manylinux may link.
LINKED = {"libc.so.6"}
TIME = 315532800  # the first second of 1980, which is the first that a wheel can have
CLASSIFIERS = ["Development Status :: 4 - Beta", "Environment :: Console", "Framework :: Pytest",
               "Intended Audience :: Developers", "Operating System :: POSIX :: Linux",
               "Programming Language :: Python :: 3", "Programming Language :: Python :: 3 :: Only",
               "Programming Language :: Python :: Implementation :: CPython",
               "Topic :: Software Development :: Testing", "Typing :: Typed"]
ENTRY_POINTS = "[pytest11]\ndekarino = dekarino.pytest_plugin\n"


def version():
    """The version in the package itself."""
    return re.search(r'^__version__ = "(.*)"$', (HERE / "dekarino/__init__.py").read_text(), re.M)[1]


def metadata():
    """The metadata of the package."""
    fields = ["Metadata-Version: 2.1", "Name: dekarino", f"Version: {version()}",
              "Summary: The ports of an ARINC 653 module for benches in Python, over a proved simulator",
              "Keywords: ARINC 653,APEX,avionics,simulator,testing", *(f"Classifier: {it}" for it in CLASSIFIERS),
              "Requires-Python: >=3.9", "Description-Content-Type: text/markdown"]
    return "\n".join(fields) + "\n\n" + (HERE / "README.md").read_text()


def sources():
    """The package's own files, by their names in it."""
    paths = sorted(it for it in (HERE / "dekarino").rglob("*") if it.is_file() and "__pycache__" not in it.parts)
    found = {f"dekarino/{it.relative_to(HERE / 'dekarino').as_posix()}": it for it in paths}
    return {name: path for name, path in found.items() if path.name not in (LIBRARY, *PROGRAMS, RECORD)}


def built():
    """The shared object, and the programs if they exist: from an archive of sources, from an unpacked package, or made
    now."""
    names = [LIBRARY, *PROGRAMS, RECORD]
    places = {name: HERE / "dekarino" for name in names}
    if (ROOT / RECORD).exists():
        places = {**{name: ROOT for name in names}, LIBRARY: ROOT / "c"}
    elif not (HERE / "PKG-INFO").exists():
        build()
        places = {**{name: HERE / "out" for name in names}, RECORD: record_of(HERE / "out")}
    return {f"dekarino/{name}": folder / name for name, folder in places.items()
            if name == LIBRARY or (folder / name).is_file()}


def record_of(folder):
    """The path of the record of what a folder's files are built from: beside the prebuilt ones, if they are those."""
    digests = [hashlib.sha256(path.read_bytes()).hexdigest() for path in folder.iterdir() if path.name != RECORD]
    prebuilt = ROOT / "prebuilt"
    text = (prebuilt / RECORD).read_text() if (prebuilt / RECORD).is_file() else ""
    return prebuilt if all(it in text for it in digests) else folder


def build():
    """Makes the shared object and the programs, in a checkout."""
    if subprocess.run([HERE / "build"], stdin=subprocess.DEVNULL, check=False).returncode:
        raise SystemExit(f"there is no shared object to install: see what {HERE / 'build'} says above")


def tag(binaries):
    """The tag of a wheel with these files: that of the newest glibc that they need, if they link nothing else."""
    asked = {int(it) for content in binaries for it in re.findall(rb"GLIBC_2\.(\d+)", content)}
    linked = {it.decode() for content in binaries for it in re.findall(rb"\0(lib[\w+-]+\.so\.\d+)(?=\0)", content)}
    return f"py3-none-{f'manylinux_2_{max(asked)}_x86_64' if asked and linked <= LINKED else 'linux_x86_64'}"


def build_wheel(wheel_directory, config_settings=None, metadata_directory=None):
    """Makes the wheel that pip unpacks."""
    parts = {name: path.read_bytes() for name, path in {**sources(), **built()}.items()}
    found = tag([content for name, content in parts.items() if name in binaries()])
    return write_wheel(wheel_directory, found, parts)


def build_editable(wheel_directory, config_settings=None, metadata_directory=None):
    """Makes the wheel that pip unpacks for an editable install from this folder."""
    if not (ROOT / RECORD).exists():
        build()
    return write_wheel(wheel_directory, "py3-none-any", {"dekarino.pth": f"{HERE}\n".encode()})


def binaries():
    """The names of the built files."""
    return {f"dekarino/{name}" for name in (LIBRARY, *PROGRAMS)}


def write_wheel(folder, found_tag, parts):
    """Writes a wheel of the parts, and returns its name."""
    name = f"dekarino-{version()}"
    pure = str(found_tag.endswith("any")).lower()
    texts = {"METADATA": metadata(), "entry_points.txt": ENTRY_POINTS,
             "WHEEL": f"Wheel-Version: 1.0\nGenerator: backend\nRoot-Is-Purelib: {pure}\nTag: {found_tag}\n"}
    parts = {**parts, **{f"{name}.dist-info/{it}": text.encode() for it, text in texts.items()}}
    record = f"{name}.dist-info/RECORD"
    parts[record] = "".join(f"{it},{digest(content)},{len(content)}\n" for it, content in parts.items()).encode()
    parts[record] += f"{record},,\n".encode()
    wheel = f"{name}-{found_tag}.whl"
    with zipfile.ZipFile(pathlib.Path(folder) / wheel, "w") as packed:
        for it, content in parts.items():
            entry = zipfile.ZipInfo(it)
            entry.external_attr = (0o100755 if it in binaries() else 0o100644) << 16
            packed.writestr(entry, content, zipfile.ZIP_DEFLATED)
    return wheel


def digest(content):
    """The digest of an installed file, as its record has it."""
    found = base64.urlsafe_b64encode(hashlib.sha256(content).digest())
    return "sha256=" + found.rstrip(b"=").decode()


def build_sdist(sdist_directory, config_settings=None):
    """Makes an archive of sources with the built files, from which the same wheel is built anywhere."""
    name = f"dekarino-{version()}"
    own = {it: HERE / it for it in ("pyproject.toml", "backend.py", "README.md")}
    parts = {it: path.read_bytes() for it, path in {**own, **sources(), **built()}.items()}
    parts["PKG-INFO"] = metadata().encode()
    with open(pathlib.Path(sdist_directory) / f"{name}.tar.gz", "wb") as file, \
            gzip.GzipFile("", "wb", mtime=TIME, fileobj=file) as packed, \
            tarfile.open(mode="w", fileobj=packed, format=tarfile.PAX_FORMAT) as archive:
        for it, content in sorted(parts.items()):
            entry = tarfile.TarInfo(f"{name}/{it}")
            entry.size, entry.mtime, entry.mode = len(content), TIME, 0o755 if it in binaries() else 0o644
            archive.addfile(entry, io.BytesIO(content))
    return f"{name}.tar.gz"
