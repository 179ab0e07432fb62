"""Makes the wheel and the source archive of dns_rdata (PEP 517), with the shared library in them. It needs no network and no
package besides Python.

The shared library is the file that the environment's DNS_RDATA_LIBRARY names. Else it is the one that `make -C c` of the repository
made, which is run first if it can take a ready-made archive, since it takes a second then; and in a source archive, the one in the
package's folder.
"""

import base64
import hashlib
import io
import json
import os
import pathlib
import re
import subprocess
import sys
import sysconfig
import tarfile
import zipfile

HERE = pathlib.Path(__file__).resolve().parent
PACKAGE = HERE / "src/dns_rdata"
REPOSITORY = HERE.parent
LIBRARY = "libdns_rdata.so.0"


def project():
    """The table `project` of pyproject.toml. A string, or a list of strings in one line, is the same in TOML and in JSON."""
    table = re.search(r"(?ms)^\[project\]\n(.*?)(?=^\[|\Z)", (HERE / "pyproject.toml").read_text(encoding="utf-8")).group(1)
    return {key: json.loads(value) for key, value in re.findall(r"(?m)^([\w-]+) = (.+)$", table)}


def make_ready():
    """Makes the shared library of the repository, if a ready-made archive is there that was made from these sources."""
    script = REPOSITORY / "tools/ready.sh"
    if script.is_file() and subprocess.run([script, "libdns_rdata_c.a"], stdout=subprocess.DEVNULL, check=False).returncode == 0:
        subprocess.run(["make", "-s", "-C", REPOSITORY / "c"], stdout=sys.stderr, check=True)


def shared_library():
    """The octets of the shared library."""
    named = os.environ.get("DNS_RDATA_LIBRARY")
    files = [pathlib.Path(named)] if named else [PACKAGE / LIBRARY, REPOSITORY / "c/out" / LIBRARY]
    if not named and not files[0].is_file():
        make_ready()
    for file in files:
        if file.is_file():
            return file.read_bytes()
    looked = " and no ".join(map(str, files))
    raise SystemExit(f"dns_rdata: no {looked}: run `make -C c` in the repository, or let DNS_RDATA_LIBRARY name the shared library")


def licence(name):
    """A licence, which is beside the package in a source archive and in the repository's top folder."""
    file = HERE / name
    return (file if file.is_file() else REPOSITORY / name).read_bytes()


def metadata(table):
    """The file METADATA of a wheel, and PKG-INFO of a source archive."""
    lines = ["Metadata-Version: 2.1", f"Name: {table['name']}", f"Version: {table['version']}", f"Summary: {table['description']}"]
    lines += [f"License: {table['license']}", f"Keywords: {','.join(table['keywords'])}", f"Requires-Python: {table['requires-python']}"]
    lines += [f"Classifier: {it}" for it in table["classifiers"]] + [f"License-File: {it}" for it in table["license-files"]]
    readme = (HERE / table["readme"]).read_text(encoding="utf-8")
    return ("\n".join([*lines, "Description-Content-Type: text/markdown", "", readme])).encode()


def file_name(table):
    return f"{table['name'].replace('-', '_')}-{table['version']}"


def build_wheel(wheel_directory, config_settings=None, metadata_directory=None):
    """Makes the wheel: a zip file with the package and the folder that says what is in it."""
    table = project()
    tag = "py3-none-" + re.sub(r"[-.]", "_", sysconfig.get_platform())
    info = f"{file_name(table)}.dist-info"
    files = {f"dns_rdata/{file.name}": file.read_bytes() for file in sorted([*PACKAGE.glob("*.py"), PACKAGE / "py.typed"])}
    files[f"dns_rdata/{LIBRARY}"] = shared_library()
    files[f"{info}/METADATA"] = metadata(table)
    files[f"{info}/WHEEL"] = f"Wheel-Version: 1.0\nGenerator: dns_rdata_build\nRoot-Is-Purelib: false\nTag: {tag}\n".encode()
    files.update({f"{info}/{name}": licence(name) for name in table["license-files"]})
    digest = {name: base64.urlsafe_b64encode(hashlib.sha256(octets).digest()).rstrip(b"=").decode() for name, octets in files.items()}
    record = [f"{name},sha256={digest[name]},{len(octets)}\n" for name, octets in files.items()]
    files[f"{info}/RECORD"] = "".join([*record, f"{info}/RECORD,,\n"]).encode()
    name = f"{file_name(table)}-{tag}.whl"
    with zipfile.ZipFile(pathlib.Path(wheel_directory) / name, "w", zipfile.ZIP_DEFLATED) as wheel:
        for path, octets in files.items():
            entry = zipfile.ZipInfo(path)  # its date is always 1980, so that equal files make equal wheels
            entry.external_attr = (0o755 if path.endswith(LIBRARY) else 0o644) << 16
            wheel.writestr(entry, octets, zipfile.ZIP_DEFLATED)
    return name


def build_sdist(sdist_directory, config_settings=None):
    """Makes the source archive, from which the wheel is made without the repository."""
    table = project()
    folder = file_name(table)
    kept = [HERE / "pyproject.toml", HERE / "README.md", pathlib.Path(__file__), *PACKAGE.glob("*.py"), PACKAGE / "py.typed"]
    files = {str(file.resolve().relative_to(HERE)): file.read_bytes() for file in [*kept, *HERE.glob("tests/*.py")]}
    files[f"src/dns_rdata/{LIBRARY}"] = shared_library()
    files["PKG-INFO"] = metadata(table)
    files.update({name: licence(name) for name in table["license-files"]})
    with tarfile.open(pathlib.Path(sdist_directory) / f"{folder}.tar.gz", "w:gz", format=tarfile.PAX_FORMAT) as archive:
        for path, octets in files.items():
            entry = tarfile.TarInfo(f"{folder}/{path}")
            entry.size, entry.mode = len(octets), 0o755 if path.endswith(LIBRARY) else 0o644
            archive.addfile(entry, io.BytesIO(octets))
    return f"{folder}.tar.gz"
