"""Writes the wheel of the module for Python: the build backend of pyproject.toml.

backend.py DIRECTORY [LIBRARY] writes the wheel to this directory, with this shared library or
without one, and prints its name. Pip passes the library by `--config-settings library=LIBRARY`. The
wheel has the same bytes for the same files. The times in it are SOURCE_DATE_EPOCH, or 1980.
"""

import base64
import hashlib
import os
import re
import sys
import time
import zipfile
from pathlib import Path

HERE = Path(__file__).resolve().parent
# The processors of libraries, by the number in the header of an ELF file.
PROCESSORS = {62: "x86_64", 183: "aarch64"}


def platform_of(library: bytes) -> str:
    """Returns the platforms where a library works: a processor, and the oldest glibc."""
    processor = PROCESSORS[int.from_bytes(library[18:20], "little")]
    versions = re.findall(rb"\0GLIBC_2\.(\d+)(?:\.\d+)?(?=\0)", library)
    # Before 2.17 the names of the platforms have another form.
    return f"manylinux_2_{max([17, *map(int, versions)])}_{processor}"


def metadata() -> dict[str, str]:
    """Returns the strings of the table of the project. Python has no parser of TOML before 3.11."""
    text = (HERE / "pyproject.toml").read_text(encoding="utf-8")
    table = text.partition("[project]\n")[2].partition("\n[")[0]
    return dict(re.findall(r'^([\w-]+) = "(.*)"$', table, re.M))


def contents(library: bytes | None) -> tuple[str, dict[str, bytes]]:
    """Returns the name of the wheel, and its files."""
    project = metadata()
    name = f"{project['name']}-{project['version']}"
    tag = f"py3-none-{platform_of(library) if library else 'any'}"
    files = {f"bootimg/{path.name}": path.read_bytes() for path in (HERE / "bootimg").glob("*.*")}
    if library:
        files["bootimg/libbootimg.so"] = library
    information = {
        "METADATA": [
            "Metadata-Version: 2.1",
            f"Name: {project['name']}",
            f"Version: {project['version']}",
            f"Summary: {project['description']}",
            f"License: {project['license']}",
            f"Requires-Python: {project['requires-python']}",
        ],
        "WHEEL": [
            "Wheel-Version: 1.0",
            "Generator: bootimg",
            f"Root-Is-Purelib: {str(library is None).lower()}",
            f"Tag: {tag}",
        ],
    }
    for file, lines in information.items():
        files[f"{name}.dist-info/{file}"] = "".join(f"{line}\n" for line in lines).encode()
    if (HERE.parent / "LICENSE").exists():  # It is not there in an archive of this directory alone.
        files[f"{name}.dist-info/LICENSE"] = (HERE.parent / "LICENSE").read_bytes()
    files[f"{name}.dist-info/RECORD"] = record(files, f"{name}.dist-info/RECORD")
    return f"{name}-{tag}.whl", files


def record(files: dict[str, bytes], own: str) -> bytes:
    """Returns the list of the files, with the digest and the size of each but the list itself."""
    lines = []
    for path, data in sorted(files.items()):
        digest = base64.urlsafe_b64encode(hashlib.sha256(data).digest()).decode().rstrip("=")
        lines.append(f"{path},sha256={digest},{len(data)}\n")
    return "".join([*lines, f"{own},,\n"]).encode()


def write(directory: str, path: str | None) -> str:
    """Writes the wheel with this library, and returns its name."""
    name, files = contents(Path(path).read_bytes() if path else None)
    seconds = int(os.environ.get("SOURCE_DATE_EPOCH") or 0)
    # A time in an archive is at least that of the first day of 1980.
    moment = time.gmtime(max(seconds, 315532800))[:6]
    wheel = Path(directory) / name
    with zipfile.ZipFile(wheel, "w", zipfile.ZIP_DEFLATED, compresslevel=9) as archive:
        for file, data in sorted(files.items()):
            entry = zipfile.ZipInfo(file, moment)
            entry.external_attr = 0o100644 << 16
            entry.compress_type = zipfile.ZIP_DEFLATED
            archive.writestr(entry, data)
    return name


def build_wheel(
    wheel_directory: str,
    config_settings: dict[str, str] | None = None,
    metadata_directory: str | None = None,
) -> str:
    """Writes the wheel: what pip calls."""
    return write(wheel_directory, (config_settings or {}).get("library"))


if __name__ == "__main__":
    print(write(sys.argv[1], sys.argv[2] if len(sys.argv) > 2 else None))
