"""Builds the package: links the proved archive as a shared library, and writes a wheel with it (PEP 517).

The archive is libxemdulba.a in the folder that XEMDULBA_LIB_DIR names; else in the source folder's target/staticlib, where
`cli/archive` writes it; else where pkg-config says. libxemdulba.kit beside it has the identity of the kit that proved it, and
goes into the package. As a program, `xemdulba_build.py FOLDER` puts the library and that file into a folder.
"""

import base64
import contextlib
import hashlib
import importlib.util
import os
import re
import shlex
import subprocess
import sys
import sysconfig
import tempfile
import zipfile
from pathlib import Path
from typing import NamedTuple, Optional

PYTHON = Path(__file__).resolve().parents[1]
MODULES = PYTHON / "xemdulba"
OWN = PYTHON.parents[1] / "target" / "staticlib"
ARCHIVE, LIBRARY, KIT = "libxemdulba.a", "libxemdulba.so", "libxemdulba.kit"

# The linker refuses code that is not position independent (-z text) and names that no library has (-z defs).
FLAGS = ["-shared", "-Wl,-z,text", "-Wl,-z,defs"]


class BuildError(Exception):
    """Why there is no package."""


class UnsupportedOperation(Exception):
    """What PEP 517 has for a hook that does not apply."""


class Found(NamedTuple):
    """The archive, and the identity of the kit that proved it."""

    archive: Path
    kit: str


def find() -> Found:
    folder = _folder()
    kit = _kit_beside(folder) or _line(os.environ.get("XEMDULBA_KIT", ""))
    if kit is None and folder == OWN:
        kit = _said("rt", "version")
    if kit is None:
        raise BuildError(f"which kit proved {folder / ARCHIVE} is not known: {KIT} beside it should say, in one line, or XEMDULBA_KIT")
    return Found(folder / ARCHIVE, kit)


def _folder() -> Path:
    named = os.environ.get("XEMDULBA_LIB_DIR")
    if named:
        return _named_folder(named)
    if (OWN / ARCHIVE).is_file():
        return OWN
    known = _said(os.environ.get("PKG_CONFIG") or "pkg-config", "--variable=libdir", "xemdulba")
    if known is not None and Path(known, ARCHIVE).is_file():
        return Path(known)
    raise BuildError(
        f"there is no {ARCHIVE}: set XEMDULBA_LIB_DIR to its folder, or run `cli/archive` in the source folder, "
        "or install it where pkg-config looks"
    )


def _named_folder(named: str) -> Path:
    """The folder that XEMDULBA_LIB_DIR names, and no other."""
    if not Path(named).is_absolute():
        raise BuildError(f"XEMDULBA_LIB_DIR is '{named}', no absolute path")
    if not Path(named, ARCHIVE).is_file():
        raise BuildError(f"XEMDULBA_LIB_DIR is '{named}': no {ARCHIVE} there")
    return Path(named)


def _kit_beside(folder: Path) -> Optional[str]:
    try:
        return _line((folder / KIT).read_text(encoding="utf-8"))
    except OSError:
        return None


def _said(*command: str) -> Optional[str]:
    """What a program says in one line, if it ends well."""
    try:
        ended = subprocess.run(command, capture_output=True, text=True, check=True)
    except (OSError, subprocess.CalledProcessError):
        return None
    return _line(ended.stdout)


def _line(text: str) -> Optional[str]:
    """The one line of a text, if it is one."""
    lines = text.strip().splitlines()
    return lines[0] if len(lines) == 1 else None


def link(archive: Path, library: Path) -> None:
    """Links the archive as a shared library."""
    compiler = shlex.split(os.environ.get("CC") or "cc")
    whole = ["-Wl,--whole-archive", str(archive), "-Wl,--no-whole-archive"]
    try:
        subprocess.run([*compiler, *FLAGS, "-o", str(library), *whole], check=True)
    except (OSError, subprocess.CalledProcessError) as error:
        raise BuildError(f"{archive} is not linked: {error}") from error


def version() -> str:
    """The version that the module states."""
    stated = re.search(r'^__version__ = "(.*)"$', (MODULES / "__init__.py").read_text(encoding="utf-8"), re.MULTILINE)
    if stated is None:
        raise BuildError("the module states no version")
    return stated.group(1)


def metadata(kit: str) -> str:
    return f"""Metadata-Version: 2.1
Name: xemdulba
Version: {version()}
Summary: Checks a job book before it runs, runs it, and writes books from tables: calls of the proved library
Classifier: Operating System :: POSIX :: Linux
Classifier: Typing :: Typed
Requires-Python: >=3.9
Description-Content-Type: text/plain

It carries the shared library, which was proved by the kit {kit}.
"""


def tag() -> str:
    """Any Python 3, this machine's system."""
    return "py3-none-" + re.sub("[-.]", "_", sysconfig.get_platform())


def wheel_words() -> str:
    return f"Wheel-Version: 1.0\nGenerator: xemdulba_build {version()}\nRoot-Is-Purelib: false\nTag: {tag()}\n"


def information_folder() -> str:
    return f"xemdulba-{version()}.dist-info"


def contents(found: Found) -> dict[str, bytes]:
    """What the wheel holds, but for the list of it."""
    with tempfile.TemporaryDirectory() as folder:
        library = Path(folder, LIBRARY)
        link(found.archive, library)
        files = {f"xemdulba/{LIBRARY}": library.read_bytes()}
    modules = [*sorted(MODULES.glob("*.py")), MODULES / "py.typed"]
    files.update((f"xemdulba/{module.name}", module.read_bytes()) for module in modules)
    files[f"xemdulba/{KIT}"] = f"{found.kit}\n".encode()
    files[f"{information_folder()}/METADATA"] = metadata(found.kit).encode()
    files[f"{information_folder()}/WHEEL"] = wheel_words().encode()
    return files


def record(files: dict[str, bytes], itself: str) -> bytes:
    """The list of the wheel's files, with their hashes."""
    lines = [f"{name},sha256={_hash(data)},{len(data)}" for name, data in files.items()]
    return "\n".join([*lines, f"{itself},,", ""]).encode()


def _hash(data: bytes) -> str:
    return base64.urlsafe_b64encode(hashlib.sha256(data).digest()).rstrip(b"=").decode()


def build_wheel(wheel_directory, config_settings=None, metadata_directory=None) -> str:
    files = contents(find())
    list_name = f"{information_folder()}/RECORD"
    files[list_name] = record(files, list_name)
    name = f"xemdulba-{version()}-{tag()}.whl"
    with zipfile.ZipFile(Path(wheel_directory, name), "w", zipfile.ZIP_DEFLATED) as wheel:
        for path, data in files.items():
            entry = zipfile.ZipInfo(path)  # no date of its own, so that the same files give the same wheel
            entry.external_attr = (0o100755 if path.endswith(".so") else 0o100644) << 16
            wheel.writestr(entry, data, zipfile.ZIP_DEFLATED)
    return name


def prepare_metadata_for_build_wheel(metadata_directory, config_settings=None) -> str:
    folder = Path(metadata_directory, information_folder())
    folder.mkdir()
    (folder / "METADATA").write_text(metadata(find().kit), encoding="utf-8")
    (folder / "WHEEL").write_text(wheel_words(), encoding="utf-8")
    return folder.name


def build_sdist(sdist_directory, config_settings=None) -> str:
    raise UnsupportedOperation("the sources alone do not make the proved archive: build a wheel")


def remove_cache() -> None:
    """Removes what importing this file wrote beside it: the source folder stays as it is."""
    cached = Path(importlib.util.cache_from_source(__file__))
    with contextlib.suppress(OSError):
        cached.unlink()
        cached.parent.rmdir()


def main(arguments: list[str]) -> int:
    if len(arguments) != 1:
        print("usage: xemdulba_build.py FOLDER", file=sys.stderr)
        return 2
    try:
        found = find()
        folder = Path(arguments[0])
        folder.mkdir(parents=True, exist_ok=True)
        link(found.archive, folder / LIBRARY)
        (folder / KIT).write_text(f"{found.kit}\n", encoding="utf-8")
    except (BuildError, OSError) as error:
        print(f"xemdulba: {error}", file=sys.stderr)
        return 1
    return 0


if __name__ == "__main__":
    sys.exit(main(sys.argv[1:]))
remove_cache()
