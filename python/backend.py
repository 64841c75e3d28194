"""Makes the package's wheel, its archive, and what `pip install -e` needs, with the standard library alone (PEP 517, PEP 660).

The shared object goes into wheel and archive, so that each then stands alone: it has to be built before. So does the program
where it is built, and is a command of the wheel then.
"""
import base64
import hashlib
import io
import os
import re
import sys
import tarfile
import zipfile
from pathlib import Path
from typing import Collection

HERE = Path(__file__).resolve().parent
NAME = "lockup"
LIBRARY = "liblockup.so"
# commands, and the functions that they call
SCRIPTS = "[console_scripts]\nlockup-shrink = lockup.shrink:main\n"
PROGRAM_SCRIPT = "lockup = lockup.program:main\n"
# by the number of an ELF file
MACHINES = {b"\x3e\0": "x86_64", b"\xb7\0": "aarch64"}


def version() -> str:
    text = (HERE / NAME / "__init__.py").read_text(encoding="utf-8")
    return re.search(r'^__version__ = "(.*)"$', text, re.M)[1]


def shared_object() -> Path:
    """Returns the shared object that goes into the wheel. Ends where there is none."""
    asked = os.environ.get("LOCKUP_LIBRARY")
    places = [Path(asked)] if asked else [
        HERE / NAME / LIBRARY, HERE.parent / "crates/lockup_c/out" / LIBRARY, *(it / "lib" / LIBRARY for it in HERE.parents)]
    found = next((it for it in places if it.is_file()), None)
    return found or sys.exit(f"lockup: there is no liblockup.so; tools/library builds it, or LOCKUP_LIBRARY names it "
                             f"(looked for {', '.join(map(str, places))})")


def program() -> "Path | None":
    """Returns the program that goes into the wheel; where there is none it says so. Ends where LOCKUP_PROGRAM names none."""
    asked = os.environ.get("LOCKUP_PROGRAM")
    places = [Path(asked)] if asked else [
        HERE / NAME / NAME, HERE.parent / "crates/lockup/out" / NAME, *(it / "bin" / NAME for it in HERE.parents)]
    found = next((it for it in places if is_program(it)), None)
    if asked and not found:
        sys.exit(f"lockup: LOCKUP_PROGRAM is no program: {asked}")
    if not found:
        print("lockup: without the program, which rounds and rows of the package call: ./build makes it, or LOCKUP_PROGRAM "
              f"names it (looked for {', '.join(map(str, places))})", file=sys.stderr)
    return found


def is_program(path: Path) -> bool:
    """Whether this is the program itself, and not pip's script that looks for it."""
    return path.is_file() and path.read_bytes().startswith(b"\x7fELF")


def built() -> "dict[str, bytes]":
    """Returns the shared object, and the program where there is one, by their names in the package."""
    binary = program()
    return {f"{NAME}/{LIBRARY}": shared_object().read_bytes(), **({f"{NAME}/{NAME}": binary.read_bytes()} if binary else {})}


def metadata() -> str:
    rows = ["Metadata-Version: 2.1", f"Name: {NAME}", f"Version: {version()}", "Requires-Python: >=3.9",
            "License: MIT OR Apache-2.0", "Summary: Lockup-free private caches kept coherent by a directory"]
    return "".join(f"{row}\n" for row in rows)


def tag_of(contents: "Collection[bytes]") -> str:
    """Returns the tag of a wheel with these shared objects and programs: of their processor, and of the oldest glibc that has
    each function that they ask for."""
    machines = {MACHINES.get(it[18:20]) if it.startswith(b"\x7fELF") else None for it in contents}
    machine = machines.pop() if len(machines) == 1 else None
    asked = [int(it) for content in contents for it in re.findall(rb"GLIBC_2\.(\d+)", content)]
    platform = f"manylinux_2_{max([17, *asked])}" if asked else "linux"
    return f"py3-none-{platform}_{machine or os.uname().machine}"


def licences() -> "dict[str, bytes]":
    """Returns the texts of the licence by their names: they are here, or in the folder above."""
    files = [it for folder in (HERE, HERE.parent) for it in sorted(folder.glob("LICENSE*")) if it.is_file()]
    return {it.name: it.read_bytes() for it in files}


def sources() -> "dict[str, bytes]":
    """Returns the files of the package by their names."""
    package = [it for it in sorted((HERE / NAME).iterdir()) if it.suffix == ".py" or it.name == "py.typed"]
    return {f"{NAME}/{it.name}": it.read_bytes() for it in package}


def write_wheel(folder: str, files: "dict[str, bytes]", tag: str, scripts: str) -> str:
    """Writes a wheel that has these files and commands. Returns its name."""
    told = f"{NAME}-{version()}.dist-info"
    pure = "true" if tag.endswith("any") else "false"
    kind = f"Wheel-Version: 1.0\nGenerator: lockup\nRoot-Is-Purelib: {pure}\nTag: {tag}\n"
    files = {**files, f"{told}/METADATA": metadata().encode(), f"{told}/WHEEL": kind.encode(),
             f"{told}/entry_points.txt": scripts.encode(),
             **{f"{told}/licenses/{name}": text for name, text in licences().items()}}
    files[f"{told}/RECORD"] = record_of(files, f"{told}/RECORD")
    name = f"{NAME}-{version()}-{tag}.whl"
    with zipfile.ZipFile(Path(folder) / name, "w", zipfile.ZIP_DEFLATED) as wheel:
        for file, content in files.items():
            member = zipfile.ZipInfo(file)
            member.compress_type, member.external_attr = zipfile.ZIP_DEFLATED, mode_of(file) << 16
            wheel.writestr(member, content)
    return name


def mode_of(file: str) -> int:
    """Returns the rights of a file: the program may be run."""
    return 0o100755 if file == f"{NAME}/{NAME}" else 0o100644


def record_of(files: "dict[str, bytes]", name: str) -> bytes:
    """Returns the list of the files with their sums."""
    rows = []
    for file, content in files.items():
        digest = base64.urlsafe_b64encode(hashlib.sha256(content).digest()).rstrip(b"=").decode()
        rows.append(f"{file},sha256={digest},{len(content)}\n")
    return "".join([*rows, f"{name},,\n"]).encode()


def build_wheel(wheel_directory: str, config_settings: object = None, metadata_directory: object = None) -> str:
    made = built()
    scripts = SCRIPTS + PROGRAM_SCRIPT * (f"{NAME}/{NAME}" in made)
    return write_wheel(wheel_directory, {**sources(), **made}, tag_of(made.values()), scripts)


def build_editable(wheel_directory: str, config_settings: object = None, metadata_directory: object = None) -> str:
    """Makes a wheel that leads to this folder, where the package looks for the shared object and the program as it does
    elsewhere."""
    shared_object()
    scripts = SCRIPTS + PROGRAM_SCRIPT * (program() is not None)
    return write_wheel(wheel_directory, {f"__editable__.{NAME}.pth": f"{HERE}\n".encode()}, "py3-none-any", scripts)


def build_sdist(sdist_directory: str, config_settings: object = None) -> str:
    stem = f"{NAME}-{version()}"
    files = {**sources(), **licences(), **built(), "PKG-INFO": metadata().encode(),
             **{it: (HERE / it).read_bytes() for it in ("backend.py", "pyproject.toml")}}
    with tarfile.open(Path(sdist_directory) / f"{stem}.tar.gz", "w:gz", format=tarfile.PAX_FORMAT) as archive:
        for name, content in files.items():
            member = tarfile.TarInfo(f"{stem}/{name}")
            member.size, member.mode = len(content), mode_of(name) & 0o777
            archive.addfile(member, io.BytesIO(content))
    return f"{stem}.tar.gz"
