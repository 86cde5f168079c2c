# SPDX-License-Identifier: MIT OR Apache-2.0
"""Builds the package for pip (PEP 517), without another package: a wheel with the library of the one C file, and a
source distribution. `bindings/python/wheel` uses the same functions.

The one C file is dcc.c in this folder (a source distribution), in the folder c (a clone or a release), or at the path
in DCC_SOURCE. The compiler is CC, else cc, gcc or clang.
"""
import base64
import gzip
import hashlib
import io
import os
import re
import shlex
import shutil
import subprocess
import sysconfig
import tarfile
import tempfile
import zipfile

HERE = os.path.dirname(os.path.realpath(__file__))
MODULES = "dcc.py", "dcc_analyser.py"
LICENSES = "LICENSE-MIT", "LICENSE-APACHE"
EXAMPLES = "show.py", "histogram.py", "table.py"
# 1 January 1980, the first time that a zip file can have
TIME = 315532800


def read(path):
    with open(path, "rb") as file:
        return file.read()


def field(name):
    """Returns a field of pyproject.toml, which has one string in each line."""
    return re.search(rf'^{name} = (?:{{ text = )?"(.*?)"', read(f"{HERE}/pyproject.toml").decode(), re.M)[1]


def source():
    """Returns the paths of dcc.c and of dcc.h. Errors: FileNotFoundError if there is no dcc.c or no dcc.h."""
    top = os.path.join(HERE, "..", "..")
    named = os.environ.get("DCC_SOURCE")
    files = [named] if named else [f"{HERE}/dcc.c", f"{top}/c/dcc.c", f"{top}/crates/dcc_c/out/c/dcc.c"]
    file = next((it for it in files if os.path.isfile(it)), None)
    if not file:
        raise FileNotFoundError(
            f"no {named or 'dcc.c'}: name the one C file in DCC_SOURCE. A pip before 21.3 copies this folder without "
            "the rest of the repository"
        )
    headers = [os.path.join(os.path.dirname(file), "dcc.h"), f"{top}/include/dcc.h"]
    header = next((it for it in headers if os.path.isfile(it)), None)
    if not header:
        raise FileNotFoundError(f"no dcc.h beside {file}")
    return file, header


def compiler():
    """Returns the command of the C compiler. Errors: FileNotFoundError if there is none."""
    if os.environ.get("CC"):
        return shlex.split(os.environ["CC"])
    found = next(filter(shutil.which, ("cc", "gcc", "clang")), None)
    if not found:
        raise FileNotFoundError("no C compiler: install one, or name it in CC")
    return [found]


def compiled(path):
    """Writes the library as a shared object. Errors: those of source and compiler, CalledProcessError."""
    file, header = source()
    words = ["-std=c99", "-O2", "-fPIC", "-shared", "-I", os.path.dirname(header), "-o", path, file]
    subprocess.run([*compiler(), *words], check=True)


def metadata():
    lines = [
        "Metadata-Version: 2.1", f"Name: {field('name')}", f"Version: {field('version')}",
        f"Summary: {field('description')}", f"License: {field('license')}", "Author: the Kogreffyn authors",
        f"Requires-Python: {field('requires-python')}", "Description-Content-Type: text/markdown",
    ]  # fmt: skip
    # the documents that README.md links to are not in the package
    description = re.sub(r"\[([^\]]*)\]\(\.\./[^)]*\)", r"\1", read(f"{HERE}/README.md").decode())
    return ("\n".join(lines) + "\n\n" + description).encode()


def info():
    return f"{field('name')}-{field('version')}.dist-info"


def told_files(tag):
    """Returns the files of the folder dist-info, without RECORD."""
    return {
        f"{info()}/METADATA": metadata(),
        f"{info()}/WHEEL": f"Wheel-Version: 1.0\nGenerator: wheel\nRoot-Is-Purelib: false\nTag: {tag}\n".encode(),
        **{f"{info()}/licenses/{it}": read(f"{HERE}/{it}") for it in LICENSES},
    }


def write_wheel(folder, library, platform):
    """Writes a wheel with this content of the shared object, and returns the name of its file. The same content gives
    the same bytes. Errors: OSError."""
    tag = f"py3-none-{platform}"
    files = {
        "dcc/__init__.py": read(f"{HERE}/dcc.py"),
        "dcc_analyser.py": read(f"{HERE}/dcc_analyser.py"),
        "dcc/libdcc_c.so": library,
        "dcc/py.typed": b"",
        **told_files(tag),
    }
    sums = {path: base64.urlsafe_b64encode(hashlib.sha256(data).digest()) for path, data in files.items()}
    record = "".join(f"{it},sha256={sums[it].decode().rstrip('=')},{len(files[it])}\n" for it in files)
    files[f"{info()}/RECORD"] = f"{record}{info()}/RECORD,,\n".encode()
    name = f"{field('name')}-{field('version')}-{tag}.whl"
    os.makedirs(folder, exist_ok=True)
    with zipfile.ZipFile(os.path.join(folder, name), "w", zipfile.ZIP_DEFLATED) as wheel:
        for path, data in files.items():
            entry = zipfile.ZipInfo(path, (1980, 1, 1, 0, 0, 0))
            entry.compress_type = zipfile.ZIP_DEFLATED
            entry.external_attr = 0o644 << 16
            wheel.writestr(entry, data)
    return name


def build_wheel(wheel_directory, config_settings=None, metadata_directory=None):
    """Writes a wheel for this machine, and returns the name of its file."""
    with tempfile.TemporaryDirectory() as room:
        compiled(f"{room}/libdcc_c.so")
        library = read(f"{room}/libdcc_c.so")
    return write_wheel(wheel_directory, library, re.sub(r"[-.]", "_", sysconfig.get_platform()))


def build_sdist(sdist_directory, config_settings=None):
    """Writes a source distribution with the one C file, and returns the name of its file. The same files give the same
    bytes."""
    name = f"{field('name')}-{field('version')}"
    here = "README.md", "backend.py", "pyproject.toml", *MODULES, *LICENSES, *EXAMPLES
    files = {"PKG-INFO": metadata(), **{it: read(f"{HERE}/{it}") for it in here}}
    files.update(zip(("dcc.c", "dcc.h"), map(read, source())))
    whole = io.BytesIO()
    with tarfile.open(fileobj=whole, mode="w", format=tarfile.PAX_FORMAT) as archive:
        for path in sorted(files):
            entry = tarfile.TarInfo(f"{name}/{path}")
            entry.size, entry.mtime, entry.mode = len(files[path]), TIME, 0o755 if path in EXAMPLES else 0o644
            archive.addfile(entry, io.BytesIO(files[path]))
    with open(os.path.join(sdist_directory, f"{name}.tar.gz"), "wb") as file:
        file.write(gzip.compress(whole.getvalue(), mtime=TIME))
    return f"{name}.tar.gz"
