"""Makes the wheel of the package strm, which carries the shared library: build/libstrm.so of the repository, or lib/libstrm.so below the folder that
the package is installed in. Tested, not proved. It needs Python alone, and the same files give the same bytes. `pip install .` calls build_wheel
(pyproject.toml).

    python3 make_wheel.py FOLDER [LIBRARY]
"""
import base64
import hashlib
import os
import sys
import zipfile

HERE = os.path.dirname(os.path.abspath(__file__))
TOP = os.path.join(HERE, "..", "..")
PROCESSORS = {62: "x86_64", 183: "aarch64"}


def read(*path):
    with open(os.path.join(*path), "rb") as file:
        return file.read()


def built():
    """The path of the library."""
    paths = [os.path.join(TOP, folder, "libstrm.so") for folder in ("build", os.path.join("..", "..", "lib"))]
    found = next(filter(os.path.exists, paths), None)
    if found is None:
        raise SystemExit("there is no build/libstrm.so: `make lib` builds it")
    return found


def build_wheel(wheel_directory, config_settings=None, metadata_directory=None, library=None):
    """Writes the wheel into a folder, and returns its name."""
    code, version = read(library or built()), read(TOP, "VERSION").decode().strip()
    tag = f"py3-none-linux_{PROCESSORS.get(int.from_bytes(code[18:20], 'little'), 'any')}"
    about = f"strm-{version}.dist-info"
    summary = "Message blocks and queues of UNIX System V Release 4 STREAMS, over the proved library libstrm"
    files = {
        "strm/__init__.py": read(HERE, "strm", "__init__.py"),
        "strm/libstrm.so": code,
        "strm/py.typed": b"",
        f"{about}/METADATA": f"Metadata-Version: 2.1\nName: strm\nVersion: {version}\nSummary: {summary}\nLicense: MIT\nRequires-Python: >=3.8\n".encode(),
        f"{about}/WHEEL": f"Wheel-Version: 1.0\nGenerator: strm\nRoot-Is-Purelib: false\nTag: {tag}\n".encode(),
    }
    sums = ((path, base64.urlsafe_b64encode(hashlib.sha256(text).digest()).decode().rstrip("="), len(text)) for path, text in files.items())
    record = f"{about}/RECORD"
    files[record] = "".join([*(f"{path},sha256={total},{size}\n" for path, total, size in sums), f"{record},,\n"]).encode()
    name = f"strm-{version}-{tag}.whl"
    with zipfile.ZipFile(os.path.join(wheel_directory, name), "w") as wheel:
        for path, text in files.items():
            item = zipfile.ZipInfo(path)
            item.external_attr = 0o644 << 16
            wheel.writestr(item, text, zipfile.ZIP_DEFLATED)
    return name


if __name__ == "__main__":
    build_wheel(sys.argv[1], library=(sys.argv[2:] or [None])[0])
