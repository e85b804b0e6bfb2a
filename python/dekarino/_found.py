"""Finds the shared object and the programs. In a checkout they must be made from its sources."""
import functools
import hashlib
import os
import pathlib

from ._errors import LibraryError

FOLDER = pathlib.Path(__file__).resolve().parent
# The root of a checkout or of an unpacked package.
ROOT = FOLDER.parent.parent


def find(name: str) -> pathlib.Path:
    """The path of the shared object or of a program: made by python/build in a checkout, in an unpacked package, or
    installed beside this file."""
    if (ROOT / "crates").is_dir() and (ROOT / "python/build").is_file():
        return _of_the_sources(name)
    if (ROOT / "BUILT_FROM").is_file() and (ROOT / "python/dekarino").is_dir():
        path, remedy = ROOT / ("c" if name.endswith(".so") else "") / name, "unpack the package again"
    else:
        path, remedy = FOLDER / name, "it belongs to the installed package: install that again"
    if not path.is_file():
        raise LibraryError(f"there is no {name} at {path}: {remedy}")
    return path


@functools.lru_cache(maxsize=None)
def _of_the_sources(name: str) -> pathlib.Path:
    """The path of what python/build made, if it made it from the sources of this checkout."""
    path, command = ROOT / "python/out" / name, f"run {ROOT}/python/build"
    if not path.is_file():
        raise LibraryError(f"there is no {name} at {path}: {command}")
    record = path.parent / "BUILT_FROM"
    made = record.read_text() if record.is_file() else ""
    if f"{hashlib.sha256(path.read_bytes()).hexdigest()}  {name}\n" not in made or \
            not made.startswith(f"sources {sources_digest()}\n"):
        raise LibraryError(f"{path} is not made of the sources of this checkout: {command}")
    return path


@functools.lru_cache(maxsize=None)
def sources_digest() -> str:
    """The digest of the checkout's sources, as prebuilt/BUILT_FROM names it."""
    paths = ["crates.txt"]
    for crate in os.listdir(ROOT / "crates"):
        for part in ("src", "specs", "proofs"):
            for folder, _, names in os.walk(ROOT / "crates" / crate / part):
                paths += [os.path.relpath(os.path.join(folder, name), ROOT) for name in names]
    lines = (f"{hashlib.sha256((ROOT / path).read_bytes()).hexdigest()}  {path}\n" for path in
             sorted(paths, key=os.fsencode))
    return hashlib.sha256("".join(lines).encode()).hexdigest()
