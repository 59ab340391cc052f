"""The library that the host answers by: the one that is installed, and those that were kept."""

import hashlib
import os
import tempfile
from pathlib import Path

from hosting import header as headers
from junction.errors import LibraryError
from junction.native import Library

FOLDER_MODE = 0o700
ROOT = Path(__file__).resolve().parent.parent


def load(path: Path, header_path: Path) -> Library:
    """The library at a path, with the lengths of the header at another."""
    try:
        return Library(path, headers.read(header_path))
    except headers.HeaderError as error:
        raise LibraryError(str(error)) from error


def installed() -> Library:
    """The library beside the installed host, else the checkout's, unless JUNCTION_LIBRARY and JUNCTION_HEADER name others."""
    path, header_path = ROOT / "libjunction.so", ROOT / "junction.h"
    if not path.exists():
        path, header_path = ROOT / "target/host/libjunction.so", ROOT / "include/junction.h"
    path = Path(os.environ.get("JUNCTION_LIBRARY", path))
    header_path = Path(os.environ.get("JUNCTION_HEADER", header_path))
    if not path.exists():
        raise LibraryError(f"there is no library {path}: hosting/build makes target/host/libjunction.so")
    return load(path, header_path)


def keep(library: Library, folder: Path) -> None:
    """Keeps a copy of a library and its lengths in a folder, so that its lines can be taken again when another is installed."""
    try:
        folder.mkdir(mode=FOLDER_MODE, exist_ok=True)
        _write_whole(folder / f"{library.sha256}.h", headers.text(library.header).encode())
        _write_whole(folder / f"{library.sha256}.so", library.content)
    except OSError as error:
        raise LibraryError(f"the library cannot be copied to {folder}: {error}") from error


def kept(sha256: str, folder: Path) -> Library:
    """The library of this SHA-256 that was kept in a folder. One that was changed since is not loaded."""
    path = folder / f"{sha256}.so"
    try:
        content = path.read_bytes()
    except OSError as error:
        raise LibraryError(f"library {sha256} is not at hand: {error}") from error
    if hashlib.sha256(content).hexdigest() != sha256:
        raise LibraryError(f"the library {path} is not the one that its name says")
    return load(path, path.with_suffix(".h"))


def _write_whole(path: Path, content: bytes) -> None:
    """Writes a file that is not there yet; it takes its place whole, by a rename."""
    if path.exists():
        return
    handle, made = tempfile.mkstemp(dir=path.parent)
    try:
        with open(handle, "wb") as file:
            file.write(content)
            file.flush()
            os.fsync(handle)
        os.rename(made, path)
    except OSError:
        os.unlink(made)
        raise
