"""Builds the wheel and the sdist of the module `qroute`, as pip asks for them (PEP 517 and 660), by the standard library alone.

    build_wheel, build_sdist, build_editable    what pip calls
    program=PATH                                a setting: the program that goes into the wheel; `program=none` for none

A wheel has the module, the device files, the manual, the completions and the program. In a checkout the program is the one
that the launcher built last, `out/qroute`; if it isn't there, the wheel has none, and the module looks for one along PATH.
An sdist has no program, since nothing in it could build one.

The same files give the same bytes: entries come in order, and each bears the time of SOURCE_DATE_EPOCH, else 1980.
"""

from __future__ import annotations

import base64
import collections.abc
import gzip
import hashlib
import io
import os
import pathlib
import re
import sys
import tarfile
import time
import tomllib
import typing
import zipfile

HERE = pathlib.Path(__file__).resolve().parent
# Where a checkout or an archive has the files beside the module; an sdist has them in its own folder.
TOP = HERE if (HERE / "devices").is_dir() else HERE.parent
# pip hands settings as texts, or as lists of texts
Settings = collections.abc.Mapping[str, typing.Any] | None
# The earliest time that an entry of a zip file may bear.
EARLIEST = 315532800
# What belongs to the module and isn't in its folder: its place in a checkout, and below the folder of an installation.
SHARED = {
    "docs/qroute.1": "share/man/man1/qroute.1",
    "tools/completions/qroute.bash": "share/bash-completion/completions/qroute",
    "tools/completions/_qroute": "share/zsh/site-functions/_qroute",
    "tools/completions/qroute.fish": "share/fish/vendor_completions.d/qroute.fish",
}
# What an sdist has of the files beside the module.
SOURCES = ["LICENSE", "NOTICE", "devices/*.toml", "docs/PYTHON.md", *SHARED]
LICENSES = ("LICENSE", "NOTICE")


def project() -> dict[str, typing.Any]:
    """What pyproject.toml says of the project."""
    told: dict[str, typing.Any] = tomllib.loads((HERE / "pyproject.toml").read_text(encoding="utf-8"))
    return dict(told["project"])


def version() -> str:
    """The version, as the module says it."""
    text = (HERE / "qroute/__init__.py").read_text(encoding="utf-8")
    found = re.search(r'^__version__ = "([^"]+)"$', text, re.MULTILINE)
    if found is None:
        raise ValueError("qroute/__init__.py has no line of its version")
    return found.group(1)


def epoch() -> int:
    """The time that each entry bears, in seconds since 1970."""
    return max(EARLIEST, int(os.environ.get("SOURCE_DATE_EPOCH", EARLIEST)))


def module_files() -> list[pathlib.Path]:
    """The files of the module, below its folder."""
    found = [it for it in (HERE / "qroute").rglob("*") if it.suffix == ".py" or it.name == "py.typed"]
    return sorted(it.relative_to(HERE) for it in found)


def glibc_of(program: bytes) -> str | None:
    """The newest version of the GNU C library that a program names, as `2.34`; None for one that names none."""
    found = {tuple(map(int, it)) for it in re.findall(rb"\0GLIBC_(\d+)\.(\d+)(?:\.\d+)?(?=\0)", program)}
    return ".".join(map(str, max(found))) if found else None


def platform_of(program: bytes | None) -> str:
    """The platform in a wheel's name, for the program that it has."""
    if program is None:
        return "any"
    # four bytes of every ELF file, and the number of its machine
    if program[:4] != b"\x7fELF" or program[18:20] != b"\x3e\0":
        raise ValueError("the program is no ELF file for x86-64")
    glibc = glibc_of(program)
    return f"manylinux_{glibc.replace('.', '_')}_x86_64" if glibc else "linux_x86_64"


def program_of(settings: Settings) -> pathlib.Path | None:
    """The program that goes into the wheel."""
    asked = (settings or {}).get("program")
    if asked == "none":
        return None
    if asked is not None:
        return pathlib.Path(str(asked))
    built = TOP / "out/qroute"
    return built if built.is_file() else None


def metadata() -> str:
    """The file METADATA of a wheel, and PKG-INFO of an sdist."""
    told = project()
    lines = [
        "Metadata-Version: 2.1",
        f"Name: {told['name']}",
        f"Version: {version()}",
        f"Summary: {told['description']}",
        f"License: {told['license']['text']}",
        f"Requires-Python: {told['requires-python']}",
        *(f"License-File: {it}" for it in LICENSES if (TOP / it).is_file()),
    ]
    for extra, needs in told["optional-dependencies"].items():
        lines += [f"Provides-Extra: {extra}", *(f'Requires-Dist: {it} ; extra == "{extra}"' for it in needs)]
    page = TOP / "docs/PYTHON.md"
    if page.is_file():
        lines += ["Description-Content-Type: text/markdown", "", page.read_text(encoding="utf-8")]
    return "\n".join(lines) + "\n"


def entry_points(has_program: bool) -> str:
    """The file entry_points.txt of a wheel; without a program it has no command either, which would find itself along PATH."""
    told = project()
    groups = ({"console_scripts": told["scripts"]} if has_program else {}) | told["entry-points"]
    return "\n".join(f"[{group}]\n" + "".join(f"{key} = {it}\n" for key, it in rows.items()) for group, rows in groups.items())


def put(archive: zipfile.ZipFile, name: str, text: bytes, mode: int = 0o644) -> str:
    """Adds a file to a wheel; its line of RECORD."""
    entry = zipfile.ZipInfo(name, time.gmtime(epoch())[:6])
    entry.external_attr = (0o100000 | mode) << 16
    entry.compress_type = zipfile.ZIP_DEFLATED
    entry.create_system = 3
    archive.writestr(entry, text)
    digest = base64.urlsafe_b64encode(hashlib.sha256(text).digest()).rstrip(b"=").decode()
    return f"{name},sha256={digest},{len(text)}\n"


def write_wheel(folder: str, tag: str, files: collections.abc.Mapping[str, tuple[bytes, int]]) -> str:
    """Writes a wheel of these files, each with its mode; the wheel's name."""
    stem = f"{project()['name']}-{version()}"
    info = f"{stem}.dist-info"
    told = {
        f"{info}/METADATA": metadata(),
        f"{info}/WHEEL": f"Wheel-Version: 1.0\nGenerator: qroute-backend\nRoot-Is-Purelib: {str(tag.endswith('any')).lower()}\nTag: {tag}\n",
        f"{info}/entry_points.txt": entry_points("qroute/bin/qroute" in files),
    }
    licenses = {f"{info}/{it}": (TOP / it).read_bytes() for it in LICENSES if (TOP / it).is_file()}
    name = f"{stem}-{tag}.whl"
    with zipfile.ZipFile(pathlib.Path(folder) / name, "w") as archive:
        record = [put(archive, place, *files[place]) for place in sorted(files)]
        record += [put(archive, place, text.encode()) for place, text in told.items()]
        record += [put(archive, place, text) for place, text in licenses.items()]
        put(archive, f"{info}/RECORD", ("".join(record) + f"{info}/RECORD,,\n").encode())
    return name


def build_wheel(wheel_directory: str, config_settings: Settings = None, metadata_directory: str | None = None) -> str:
    """The wheel, in the folder that is named; its name."""
    program = program_of(config_settings)
    bytes_of_program = program.read_bytes() if program else None
    files = {it.as_posix(): ((HERE / it).read_bytes(), 0o644) for it in module_files()}
    for path in (TOP / "devices").glob("*.toml"):
        files[f"qroute/devices/{path.name}"] = (path.read_bytes(), 0o644)
    data = f"{project()['name']}-{version()}.data/data"
    for source, place in SHARED.items():
        if (TOP / source).is_file():
            files[f"{data}/{place}"] = ((TOP / source).read_bytes(), 0o644)
    if bytes_of_program is not None:
        files["qroute/bin/qroute"] = (bytes_of_program, 0o755)
    else:
        print("qroute: there is no program to put into the wheel; the module will look for one along PATH", file=sys.stderr)
    return write_wheel(wheel_directory, f"py3-none-{platform_of(bytes_of_program)}", files)


def build_editable(wheel_directory: str, config_settings: Settings = None, metadata_directory: str | None = None) -> str:
    """A wheel that leads to the module where it is."""
    return write_wheel(wheel_directory, "py3-none-any", {"qroute.pth": (f"{HERE}\n".encode(), 0o644)})


def build_sdist(sdist_directory: str, config_settings: Settings = None) -> str:
    """The sdist, in the folder that is named; its name."""
    stem = f"{project()['name']}-{version()}"
    files = {it.as_posix(): (HERE / it).read_bytes() for it in [pathlib.Path("backend.py"), pathlib.Path("pyproject.toml"), *module_files()]}
    for pattern in SOURCES:
        files |= {it.relative_to(TOP).as_posix(): it.read_bytes() for it in TOP.glob(pattern)}
    files["PKG-INFO"] = metadata().encode()
    listed = {f"{stem}/{name}": (text, 0o644) for name, text in files.items()}
    (pathlib.Path(sdist_directory) / f"{stem}.tar.gz").write_bytes(tarball(listed))
    return f"{stem}.tar.gz"


def tarball(files: collections.abc.Mapping[str, tuple[bytes | str, int]]) -> bytes:
    """A compressed archive of these files, each with its mode; a text in the place of bytes is where a link leads."""
    packed = io.BytesIO()
    with tarfile.open(fileobj=packed, mode="w", format=tarfile.PAX_FORMAT) as archive:
        for name in sorted(files):
            text, mode = files[name]
            entry = tarfile.TarInfo(name)
            entry.mtime, entry.mode, entry.uname, entry.gname = epoch(), mode, "root", "root"
            if isinstance(text, str):
                entry.type, entry.linkname = tarfile.SYMTYPE, text
                archive.addfile(entry)
            else:
                entry.size = len(text)
                archive.addfile(entry, io.BytesIO(text))
    return gzip.compress(packed.getvalue(), mtime=epoch())


def get_requires_for_build_wheel(config_settings: Settings = None) -> list[str]:
    """What pip has to install before it builds: nothing."""
    return []


get_requires_for_build_sdist = get_requires_for_build_editable = get_requires_for_build_wheel
