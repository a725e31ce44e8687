"""Builds the extension module, and a wheel of it. Needs a C compiler and Python's headers, and no network.

  build_wheel.py FOLDER              writes the wheel to a folder, and prints its name
  build_wheel.py --package FOLDER    writes the package itself there, for PYTHONPATH

BUCKET_LIB_DIR is the folder of libbucket.a, or bindings/out; BUCKET_INCLUDE that of bucket.h, or bindings.
CC is the compiler, CFLAGS and LDFLAGS are passed to it. `pip wheel` and `pip install` come here too, by
pyproject.toml. The wheel is one for all CPythons from 3.10 on (abi3).
"""

import base64
import hashlib
import os
import platform
import re
import shlex
import subprocess
import sys
import sysconfig
import tempfile
import zipfile

HERE = os.path.dirname(os.path.abspath(__file__))
FLAGS = ["-std=c11", "-O2", "-g", "-fPIC", "-fvisibility=hidden", "-DNDEBUG", "-DPy_LIMITED_API=0x030A0000"]
LINKS = ["-shared", "-Wl,--exclude-libs,ALL", "-Wl,-z,relro,-z,now", "-Wl,-z,noexecstack"]
# The date of each file in a wheel, so that equal sources give equal wheels.
DATE = (2026, 1, 1, 0, 0, 0)


def folder_of(variable, default):
    return os.path.abspath(os.environ.get(variable, os.path.join(HERE, default)))


def version():
    """The version in the header."""
    with open(os.path.join(folder_of("BUCKET_INCLUDE", ".."), "bucket.h"), encoding="utf-8") as header:
        text = header.read()
    parts = "MAJOR", "MINOR", "PATCH"
    return ".".join(re.search(rf"#define BUCKET_VERSION_{part} (\d+)", text)[1] for part in parts)


def words(variable, default=""):
    return shlex.split(os.environ.get(variable, default))


def build_extension(path):
    """Compiles and links the module."""
    folder = os.path.join(HERE, "src")
    sources = sorted(os.path.join(folder, name) for name in os.listdir(folder) if name.endswith(".c"))
    includes = ["-I" + folder_of("BUCKET_INCLUDE", ".."), "-I" + sysconfig.get_paths()["include"]]
    library = os.path.join(folder_of("BUCKET_LIB_DIR", "../out"), "libbucket.a")
    command = [*words("CC", "cc"), *FLAGS, *words("CFLAGS"), *includes, *LINKS, *sources, library, *words("LDFLAGS")]
    subprocess.run([*command, "-o", path], check=True)


def package(folder):
    """The files of the package, by their names below a folder that gets it."""
    names = ["__init__.py", "__init__.pyi", "py.typed"]
    files = {}
    for name in names:
        with open(os.path.join(HERE, "package", name), "rb") as file:
            files["bucket/" + name] = file.read()
    with tempfile.TemporaryDirectory() as made:
        path = os.path.join(made, "_bucket.abi3.so")
        build_extension(path)
        with open(path, "rb") as file:
            files["bucket/_bucket.abi3.so"] = file.read()
    if folder is not None:
        os.makedirs(os.path.join(folder, "bucket"), exist_ok=True)
        for name, data in files.items():
            # A loaded file isn't overwritten in place.
            path = os.path.join(folder, name)
            with open(path + ".new", "wb") as file:
                file.write(data)
            os.replace(path + ".new", path)
    return files


def tag():
    glibc = platform.libc_ver()[1].replace(".", "_")
    machine = platform.machine()
    system = f"manylinux_{glibc}_{machine}" if glibc else f"linux_{machine}"
    return f"cp310-abi3-{system}"


def metadata():
    with open(os.path.join(HERE, "README.md"), encoding="utf-8") as file:
        readme = file.read()
    return f"""Metadata-Version: 2.1
Name: bucket
Version: {version()}
Summary: A dict, a set and a bounded cache over hash tables that are proved
License: Apache-2.0
Requires-Python: >=3.10
Classifier: License :: OSI Approved :: Apache Software License
Classifier: Programming Language :: Python :: Implementation :: CPython
Classifier: Typing :: Typed
Description-Content-Type: text/markdown

{readme}"""


def infos():
    """The files of the wheel's own folder, but for RECORD."""
    folder = f"bucket-{version()}.dist-info/"
    files = {
        folder + "METADATA": metadata().encode(),
        folder + "WHEEL": f"Wheel-Version: 1.0\nGenerator: bucket\nRoot-Is-Purelib: false\nTag: {tag()}\n".encode(),
    }
    for name in "LICENSE", "NOTICE":
        path = os.path.join(HERE, "../..", name)
        if not os.path.exists(path):
            path = os.path.join(HERE, name)
        if os.path.exists(path):
            with open(path, "rb") as file:
                files[folder + "licenses/" + name] = file.read()
    return folder, files


def record(files, name):
    rows = []
    for path, data in files.items():
        digest = base64.urlsafe_b64encode(hashlib.sha256(data).digest()).rstrip(b"=").decode()
        rows.append(f"{path},sha256={digest},{len(data)}\n")
    return "".join([*rows, f"{name},,\n"]).encode()


def build_wheel(wheel_directory, config_settings=None, metadata_directory=None):
    """Writes the wheel, and returns its name; pip calls this."""
    folder, files = infos()
    files = {**package(None), **files}
    files[folder + "RECORD"] = record(files, folder + "RECORD")
    name = f"bucket-{version()}-{tag()}.whl"
    os.makedirs(wheel_directory, exist_ok=True)
    with zipfile.ZipFile(os.path.join(wheel_directory, name), "w", zipfile.ZIP_DEFLATED) as wheel:
        for path, data in files.items():
            info = zipfile.ZipInfo(path, DATE)
            info.compress_type = zipfile.ZIP_DEFLATED
            info.external_attr = (0o100755 if path.endswith(".so") else 0o100644) << 16
            wheel.writestr(info, data)
    return name


def main():
    if sys.argv[1:2] == ["--package"] and len(sys.argv) == 3:
        package(sys.argv[2])
    elif len(sys.argv) == 2:
        print(build_wheel(sys.argv[1]))
    else:
        sys.exit(__doc__)


if __name__ == "__main__":
    main()
